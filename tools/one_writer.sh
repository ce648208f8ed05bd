#!/usr/bin/env bash
# Two views that write one row don't compile. This builds a program that takes two from one buffer, which the borrow
# checker must refuse, and the same program with one view, which must compile and run. It proves nothing.
set -u
top=$(cd "$(dirname "$0")/.." && pwd) || exit 1
if ! command -v rt > /dev/null; then
    echo 'one_writer: skipped, since the tool rt is missing'
    exit 0
fi
work=$(mktemp -d) || exit 1
trap 'rm -rf "$work"' EXIT
tar -C "$top" --exclude=out -cf - crates crates.txt HANDLES | tar -C "$work" -xf - || exit 1
echo 'one_writer: rns_poly' >> "$work/crates.txt"
mkdir -p "$work/crates/one_writer/src"

# The program, with the lines that take and use a second view or without them.
try_program() {
    sed "$1" > "$work/crates/one_writer/src/main.rt" << 'PROGRAM'
//! Writes a row through a view.
#![tactic(auto)]

use rns_poly::{PolyBuf, row_mut};
use std::alloc::AllocError;

fn main(rt: HostRuntime) -> Result<(), AllocError> {
    let mut buffer = PolyBuf::<4>::new(rt.alloc(), 1)?;
    let first = buffer.view_mut();
    let second = buffer.view_mut();
    row_mut(second, 0)[0] = 2;
    row_mut(first, 0)[0] = 1;
    Ok(())
}
PROGRAM
    (cd "$work/crates/one_writer" && rt try) > "$work/output" 2>&1
}

if try_program ''; then
    echo 'one_writer: FAILED, two views that write one row compile'
    exit 1
fi
if ! grep -q 'error\[borrow-e0499\]' "$work/output"; then
    cat "$work/output"
    echo 'one_writer: FAILED, two views were refused, but not since they borrow one buffer'
    exit 1
fi
if ! try_program '/second/d'; then
    cat "$work/output"
    echo 'one_writer: FAILED, the program with one view was refused'
    exit 1
fi
echo 'one_writer: ok, two views that write one row are refused, and one is not'
