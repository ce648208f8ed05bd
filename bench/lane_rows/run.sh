#!/usr/bin/env bash
# Compares row arithmetic with plain C loops of the same formulas at -O3, in rows of 16384 words.
# Usage: bench/lane_rows/run.sh [ROUNDS]. It needs `rt` and a C compiler (CC, or else cc).
# The programs run in turn, round by round; a ratio is the best time of the proved code over the best time in C.
# The proved code is built for the processor x86-64-v2.
. "$(dirname "$0")/../common.sh"

rounds=${1:-8}
start lane_bench lane_rows

cat > src/main.rt <<'RATTLE'
// Prints the nanoseconds that each call takes on rows of 16384 words, and a sum of what it wrote.
#![tactic(auto)]

ghost use Rattle.std.specs.Prelude.{◌≡◌, ◌*◌, ◌/◌, ◌<◌, ◌^◌, length};
ghost use Rattle.lane_rows.specs.Rows.{RowBelow};

use lane_rows::{add_row, butterflies, scale_row};
use std::io;
use std::rt::Clock;
use std::time::Instant;

const WORDS: usize = 16384;
const TURNS: u64 = 2000;
const Q: u64 = (1 << 60) - (1 << 18) + 1;
const W: u64 = 0x0123_4567_89ab_cdef;

fn fill(bound: u64, row: &mut [u64])
    requires { 0 < bound }
    ensures { RowBelow bound row.new }
{
    let mut word: u64 = 1;
    for i in 0..row.len() {
        word = word.wrapping_mul(0x5851_f42d_4c95_7f2d).wrapping_add(0x1405_7b7e_f767_814f);
        row[i] = word % bound;
    }
}

fn check_sum(row: &[u64]) -> u64 {
    let mut sum: u64 = 0;
    for word in row {
        sum = sum.wrapping_mul(31).wrapping_add(*word);
    }
    sum
}

fn report<R: Print + Clock>(rt: &R, call: &str, start: Instant, row: &[u64]) -> io::Result<()> {
    let nanos = start.elapsed(rt)?.as_nanos() / u128::from(TURNS);
    println!(rt; "{call} {nanos} {}", check_sum(row))
}

fn sums<R: Print + Clock>(rt: &R, a: &mut [u64], b: &mut [u64], out: &mut [u64]) -> io::Result<()>
    requires a_length { length a.old ≡ length out.old }
    requires b_length { length b.old ≡ length out.old }
{
    fill(Q, a);
    fill(Q, b);
    let start = Instant::now(rt)?;
    for _ in 0..TURNS {
        add_row(Q, a, b, out);
    }
    report(rt, "add_row", start, out)
}

fn products<R: Print + Clock>(rt: &R, shoup: u64, a: &mut [u64], out: &mut [u64]) -> io::Result<()>
    requires quotient { shoup ≡ W * 2 ^ 64 / Q }
    requires a_length { length a.old ≡ length out.old }
{
    fill(Q, a);
    let start = Instant::now(rt)?;
    for _ in 0..TURNS {
        scale_row(Q, W, shoup, a, out);
    }
    report(rt, "scale_row", start, out)
}

fn pairs<R: Print + Clock>(rt: &R, shoup: u64, lo: &mut [u64], hi: &mut [u64]) -> io::Result<()>
    requires quotient { shoup ≡ W * 2 ^ 64 / Q }
    requires lengths { length lo.old ≡ length hi.old }
{
    fill(4 * Q, lo);
    fill(4 * Q, hi);
    let start = Instant::now(rt)?;
    'turns: for _ in 0..TURNS {
        butterflies(Q, W, shoup, lo, hi);
    }
    report(rt, "butterflies", start, lo)
}

fn main(rt: HostRuntime) -> io::Result<()> {
    let shoup = (u128::from(W) * (1 << 64) / u128::from(Q)) as u64;
    let words = WORDS;
    let mut a = vec![in rt.alloc(); 0; words]?;
    let mut b = vec![in rt.alloc(); 0; words]?;
    let mut out = vec![in rt.alloc(); 0; words]?;
    sums(&rt, a.as_mut_slice(), b.as_mut_slice(), out.as_mut_slice())?;
    products(&rt, shoup, a.as_mut_slice(), out.as_mut_slice())?;
    pairs(&rt, shoup, a.as_mut_slice(), b.as_mut_slice())
}
RATTLE
proof fill/Invariants.antt <<'ANTT'
use Rattle.std.proofs.Common.{ℕ, ◌<◌, get_or}
use Rattle.lane_bench.proofs.fill.Given as goal

abbrev pub invariant-loop-i : goal.invariant-loop-i
invariant-loop-i l = (j : ℕ) → j < l.i → get_or l.row j 0 < l.bound
ANTT
proof pairs/Invariants.antt <<'ANTT'
use Rattle.std.proofs.Common.{◌*◌}
use Rattle.lane_rows.specs.Rows.{RowBelow}
use Rattle.lane_bench.specs.declared.TheConstants.{Q}
use Rattle.lane_bench.proofs.pairs.Given as goal

abbrev pub invariant-turns : goal.invariant-turns
invariant-turns g l = RowBelow (4 * Q) l.lo
ANTT

build_c <<'C'
#include <inttypes.h>
#include <stdint.h>
#include <stdio.h>
#include <time.h>

enum { WORDS = 16384, TURNS = 2000 };
static const uint64_t Q = ((uint64_t)1 << 60) - ((uint64_t)1 << 18) + 1;
static const uint64_t W = 0x0123456789abcdef;
static uint64_t a[WORDS], b[WORDS], out[WORDS];

static uint64_t high_product(uint64_t x, uint64_t y) { return (unsigned __int128)x * y >> 64; }
static uint64_t reduce_once(uint64_t bound, uint64_t x) { return x >= bound ? x - bound : x; }
static uint64_t scale_lazy(uint64_t q, uint64_t w, uint64_t shoup, uint64_t x) {
    return x * w - high_product(x, shoup) * q;
}

__attribute__((noinline)) static void add_row(uint64_t q, const uint64_t *restrict a, const uint64_t *restrict b, uint64_t *restrict out, size_t len) {
    for (size_t i = 0; i < len; i++) out[i] = reduce_once(q, a[i] + b[i]);
}
__attribute__((noinline)) static void scale_row(uint64_t q, uint64_t w, uint64_t shoup, const uint64_t *restrict a, uint64_t *restrict out, size_t len) {
    for (size_t i = 0; i < len; i++) out[i] = reduce_once(q, scale_lazy(q, w, shoup, a[i]));
}
__attribute__((noinline)) static void butterflies(uint64_t q, uint64_t w, uint64_t shoup, uint64_t *restrict lo, uint64_t *restrict hi, size_t len) {
    for (size_t i = 0; i < len; i++) {
        uint64_t x = reduce_once(2 * q, lo[i]), product = scale_lazy(q, w, shoup, hi[i]);
        lo[i] = x + product;
        hi[i] = x + 2 * q - product;
    }
}

static void fill(uint64_t bound, uint64_t *row) {
    uint64_t word = 1;
    for (size_t i = 0; i < WORDS; i++) {
        word = word * 0x5851f42d4c957f2d + 0x14057b7ef767814f;
        row[i] = word % bound;
    }
}
static uint64_t check_sum(const uint64_t *row) {
    uint64_t sum = 0;
    for (size_t i = 0; i < WORDS; i++) sum = sum * 31 + row[i];
    return sum;
}
static uint64_t now(void) {
    struct timespec t;
    clock_gettime(CLOCK_MONOTONIC, &t);
    return (uint64_t)t.tv_sec * 1000000000 + t.tv_nsec;
}
static void report(const char *call, uint64_t start, const uint64_t *row) {
    printf("%s %" PRIu64 " %" PRIu64 "\n", call, (now() - start) / TURNS, check_sum(row));
}

int main(void) {
    uint64_t shoup = ((unsigned __int128)W << 64) / Q;
    fill(Q, a);
    fill(Q, b);
    uint64_t start = now();
    for (int turn = 0; turn < TURNS; turn++) add_row(Q, a, b, out, WORDS);
    report("add_row", start, out);
    fill(Q, a);
    start = now();
    for (int turn = 0; turn < TURNS; turn++) scale_row(Q, W, shoup, a, out, WORDS);
    report("scale_row", start, out);
    fill(4 * Q, a);
    fill(4 * Q, b);
    start = now();
    for (int turn = 0; turn < TURNS; turn++) butterflies(Q, W, shoup, a, b, WORDS);
    report("butterflies", start, a);
}
C

build
for round in $(seq "$rounds"); do
    "$work/c/plain" > "$work/plain/$round.txt"
    "$work/c/native" > "$work/native/$round.txt"
    "$built" > "$work/proved/$round.txt"
done

for call in add_row scale_row butterflies; do
    agree "$call"
    awk -v call="$call" -v rows="$(best proved "$call")" -v plain="$(best plain "$call")" -v native="$(best native "$call")" 'BEGIN {
        printf "%-12s %7.1f us; C -O3 %7.1f us, ratio %.2f; C -O3 -march=native %7.1f us, ratio %.2f\n",
            call, rows / 1000, plain / 1000, rows / plain, native / 1000, rows / native
    }'
done
