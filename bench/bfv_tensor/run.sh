#!/usr/bin/env bash
# Compares the product of two ciphers, and that of a cipher with itself, with the product of a fast C++ program, at `s8192` and
# `s16384`: ciphers of two parts in coefficient form.
# Usage: bench/bfv_tensor/run.sh YARDSTICK [ROUNDS]. It needs `rt`. YARDSTICK is a program that answers
# `YARDSTICK bench SET SECONDS multiply` with a last line of JSON, in which "least" has the least
# microseconds of a call.
# The programs run in turn, round by round; a ratio is the best time of the proved code over the best of the other.
# The proved code is built for the processor x86-64-v2.
. "$(dirname "$0")/../common.sh"

yardstick=$(realpath -e "${1:?give the path of the program to compare with}")
rounds=${2:-5}
start tensor_bench bfv_tensor bfv_params rns_poly set_table word_mod ring_law anyhow
write_rows

cat > src/main.rt <<'RATTLE'
// Prints the least nanoseconds that each call takes, and a sum of what it wrote.
#![tactic(auto)]

mod rows;

ghost use Rattle.std.specs.Prelude.{◌≡◌, ◌≤◌, length, IfOk};
ghost use Rattle.set_table.specs.Sets.{degree_of};
ghost use Rattle.bfv_params.specs.Contexts.{scratch_rows_in};
ghost use Rattle.bfv_params.specs.Ciphers.{IsCipherOf};

use crate::rows::{fill, report};
use bfv_params::{Cipher, Context};
use bfv_tensor::{multiply, square};
use rns_poly::PolyBuf;
use set_table::SetName;
use std::alloc::{AllocError, Global};
use std::rt::Clock;
use std::time::Instant;

const TURNS: u64 = 20;

fn filled<const N: usize>(alloc: Global, ctx: &Context<N>, seed: u64) -> Result<Cipher<N>, AllocError>
    ensures of_context { IfOk result (IsCipherOf (ctx.now)) }
    ensures parts { IfOk result (λ c. c.parts ≡ 2) }
{
    let moduli = ctx.data_moduli();
    let mut cipher = Cipher::<N>::new(alloc, ctx)?;
    let mut row = [0; N];
    for i in 0..2 * moduli.len() {
        fill(&moduli[i % moduli.len()], seed.wrapping_add(i as u64), &mut row);
        cipher.set_row(i, &row);
    }
    Ok(cipher)
}

fn time_multiply<const N: usize, R: Print + Clock>(
    rt: &R,
    ctx: &Context<N>,
    a: &Cipher<N>,
    b: &Cipher<N>,
    out: &mut Cipher<N>,
    scratch: &mut PolyBuf<N>,
) -> anyhow::Result<()>
    requires degree { N ≤ 32768 }
    requires a_of { IsCipherOf (ctx.now) (a.now) }
    requires b_of { IsCipherOf (ctx.now) (b.now) }
    requires out_of { IsCipherOf (ctx.now) (out.old) }
    requires a_parts { (a.now).parts ≡ 2 }
    requires b_parts { (b.now).parts ≡ 2 }
    requires scratch_rows { scratch_rows_in (ctx.now) ≤ length scratch.old }
    ensures out { IsCipherOf (ctx.now) (out.new) }
    ensures scratch { length scratch.new ≡ length scratch.old }
{
    let mut least = u128::MAX;
    'turns: for _ in 0..TURNS {
        let start = Instant::now(rt)?;
        multiply(ctx, a, b, out, scratch);
        least = least.min(start.elapsed(rt)?.as_nanos());
    }
    report(rt, "multiply", ctx.set(), least, out.view().slice())?;
    Ok(())
}

fn time_square<const N: usize, R: Print + Clock>(
    rt: &R,
    ctx: &Context<N>,
    a: &Cipher<N>,
    out: &mut Cipher<N>,
    scratch: &mut PolyBuf<N>,
) -> anyhow::Result<()>
    requires degree { N ≤ 32768 }
    requires a_of { IsCipherOf (ctx.now) (a.now) }
    requires out_of { IsCipherOf (ctx.now) (out.old) }
    requires a_parts { (a.now).parts ≡ 2 }
    requires scratch_rows { scratch_rows_in (ctx.now) ≤ length scratch.old }
{
    let mut least = u128::MAX;
    'turns: for _ in 0..TURNS {
        let start = Instant::now(rt)?;
        square(ctx, a, out, scratch);
        least = least.min(start.elapsed(rt)?.as_nanos());
    }
    report(rt, "square", ctx.set(), least, out.view().slice())?;
    Ok(())
}

fn measure_in<const N: usize, R: Print + Clock>(rt: &R, alloc: Global, ctx: &Context<N>) -> anyhow::Result<()>
    requires { N ≤ 32768 }
{
    let a = filled(alloc, ctx, 100)?;
    let b = filled(alloc, ctx, 200)?;
    let mut out = filled(alloc, ctx, 400)?;
    let mut scratch = PolyBuf::<N>::new(alloc, ctx.scratch_rows())?;
    time_multiply(rt, ctx, &a, &b, &mut out, &mut scratch)?;
    time_square(rt, ctx, &a, &mut out, &mut scratch)
}

fn measure<const N: usize, R: Print + Clock>(rt: &R, alloc: Global, set: SetName) -> anyhow::Result<()>
    requires degree { N ≡ degree_of set }
    requires limit { N ≤ 32768 }
{
    let ctx = Context::<N>::new(alloc, set)?;
    measure_in(rt, alloc, &ctx)
}

fn main(rt: HostRuntime) -> anyhow::Result<()> {
    measure::<8192, HostRuntime>(&rt, rt.alloc(), SetName::S8192)?;
    measure::<16384, HostRuntime>(&rt, rt.alloc(), SetName::S16384)
}
RATTLE
proof filled/Invariants.antt <<'ANTT'
use Rattle.std.proofs.Common.{◌≡◌}
use Rattle.tensor_bench.proofs.filled.Given as goal

abbrev pub invariant-loop-i : goal.invariant-loop-i
invariant-loop-i g l = record { set : l.cipher.set ≡ l.ctx.set; level : l.cipher.level ≡ l.ctx.level; parts : l.cipher.parts ≡ 2 }
ANTT
for call in multiply square; do
    proof time_$call/Invariants.antt <<ANTT
use Rattle.std.proofs.Common.{◌≡◌, length}
use Rattle.bfv_params.specs.Ciphers.{IsCipherOf}
use Rattle.tensor_bench.proofs.time_$call.Given as goal

abbrev pub invariant-turns : goal.invariant-turns
invariant-turns g l = record { out : IsCipherOf l.ctx l.out; scratch : length l.scratch ≡ length l.fn.scratch }
ANTT
done

build
compare_sets "$yardstick" "$rounds" multiply
for set in s8192 s16384; do print_ratio "square $set" "square_$set" "multiply_$set"; done
