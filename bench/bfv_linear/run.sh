#!/usr/bin/env bash
# Compares a sum of ciphers, and the product of a cipher and a plaintext, with those of a fast C++ program, at `s8192` and
# `s16384`: ciphers of two parts in coefficient form, and a plaintext that isn't transformed before.
# Usage: bench/bfv_linear/run.sh YARDSTICK [ROUNDS]. It needs `rt`. YARDSTICK is a program that answers
# `YARDSTICK bench SET SECONDS add mul_plain` with a last line of JSON, in which "least" has the least
# microseconds of a call of each.
# The programs run in turn, round by round; a ratio is the best time of the proved code over the best of the other.
# The proved code is built for the processor x86-64-v2.
. "$(dirname "$0")/../common.sh"

yardstick=$(realpath -e "${1:?give the path of the program to compare with}")
rounds=${2:-5}
start linear_bench bfv_linear bfv_params rns_poly set_table word_mod ring_law anyhow
write_rows

cat > src/main.rt <<'RATTLE'
// Prints the least nanoseconds that each call takes, and a sum of what it wrote.
#![tactic(auto)]

mod rows;

ghost use Rattle.std.specs.Prelude.{◌≡◌, ◌≤◌, length, IfOk};
ghost use Rattle.set_table.specs.Sets.{degree_of};
ghost use Rattle.bfv_params.specs.Contexts.{scratch_rows_in};
ghost use Rattle.bfv_params.specs.Ciphers.{IsCipherOf};

use crate::rows::{fill, report};
use bfv_linear::{add, mul_plain};
use bfv_params::{Cipher, Context};
use rns_poly::PolyBuf;
use set_table::SetName;
use std::alloc::{AllocError, Global};
use std::rt::Clock;
use std::time::Instant;

const TURNS: u64 = 40;

fn filled<const N: usize>(alloc: Global, ctx: &Context<N>, seed: u64) -> Result<Cipher<N>, AllocError>
    ensures { IfOk result (IsCipherOf (ctx.now)) }
{
    let moduli = ctx.data_moduli();
    let mut cipher = Cipher::<N>::new(alloc, ctx)?;
    let mut row = [0; N];
    for i in 0..2 * moduli.len() {
        fill(&moduli[i % moduli.len()], seed.wrapping_add(i as u64), &mut row);
        cipher.set_row(i, &row);
    }
    Ok(cipher)
}

fn time_add<const N: usize, R: Print + Clock>(rt: &R, ctx: &Context<N>, a: &Cipher<N>, b: &Cipher<N>, out: &mut Cipher<N>) -> anyhow::Result<()>
    requires degree { N ≤ 32768 }
    requires a_of { IsCipherOf (ctx.now) (a.now) }
    requires b_of { IsCipherOf (ctx.now) (b.now) }
    requires out_of { IsCipherOf (ctx.now) (out.old) }
    ensures { IsCipherOf (ctx.now) (out.new) }
{
    let mut least = u128::MAX;
    'turns: for _ in 0..TURNS {
        let start = Instant::now(rt)?;
        add(ctx, a, b, out);
        least = least.min(start.elapsed(rt)?.as_nanos());
    }
    report(rt, "add", ctx.set(), least, out.view().slice())?;
    Ok(())
}

fn time_mul_plain<const N: usize, R: Print + Clock>(rt: &R, ctx: &Context<N>, a: &Cipher<N>, out: &mut Cipher<N>, scratch: &mut PolyBuf<N>) -> anyhow::Result<()>
    requires degree { N ≤ 32768 }
    requires a_of { IsCipherOf (ctx.now) (a.now) }
    requires out_of { IsCipherOf (ctx.now) (out.old) }
    requires scratch_rows { length scratch.old ≡ scratch_rows_in (ctx.now) }
{
    let mut plain = [0; N];
    fill(ctx.plain_modulus(), 300, &mut plain);
    let mut least = u128::MAX;
    'turns: for _ in 0..TURNS {
        let start = Instant::now(rt)?;
        mul_plain(ctx, a, &plain, out, scratch);
        least = least.min(start.elapsed(rt)?.as_nanos());
    }
    report(rt, "mul_plain", ctx.set(), least, out.view().slice())?;
    Ok(())
}

fn scratch_of<const N: usize>(alloc: Global, ctx: &Context<N>) -> Result<PolyBuf<N>, AllocError>
    requires { N ≤ 32768 }
    ensures { IfOk result (λ b. length b ≡ scratch_rows_in (ctx.now)) }
{
    PolyBuf::<N>::new(alloc, ctx.scratch_rows())
}

fn measure_in<const N: usize, R: Print + Clock>(rt: &R, alloc: Global, ctx: &Context<N>) -> anyhow::Result<()>
    requires { N ≤ 32768 }
{
    let a = filled(alloc, ctx, 100)?;
    let b = filled(alloc, ctx, 200)?;
    let mut out = filled(alloc, ctx, 400)?;
    let mut scratch = scratch_of(alloc, ctx)?;
    time_add(rt, ctx, &a, &b, &mut out)?;
    time_mul_plain(rt, ctx, &a, &mut out, &mut scratch)
}

fn measure<const N: usize, R: Print + Clock>(rt: &R, alloc: Global, set: SetName) -> anyhow::Result<()>
    requires degree { N ≡ degree_of set }
    requires limit { N ≤ 32768 }
{
    let ctx = Context::<N>::new(alloc, set)?;
    measure_in(rt, alloc, &ctx)
}

fn main(rt: HostRuntime) -> anyhow::Result<()> {
    measure::<8192, HostRuntime>(&rt, rt.alloc(), SetName::S8192)?;
    measure::<16384, HostRuntime>(&rt, rt.alloc(), SetName::S16384)
}
RATTLE
proof filled/Invariants.antt <<'ANTT'
use Rattle.std.proofs.Common.{◌≡◌}
use Rattle.linear_bench.proofs.filled.Given as goal

abbrev pub invariant-loop-i : goal.invariant-loop-i
invariant-loop-i g l = record { set : l.cipher.set ≡ l.ctx.set; level : l.cipher.level ≡ l.ctx.level; parts : l.cipher.parts ≡ 2 }
ANTT
proof time_add/Invariants.antt <<'ANTT'
use Rattle.bfv_params.specs.Ciphers.{IsCipherOf}
use Rattle.linear_bench.proofs.time_add.Given as goal

abbrev pub invariant-turns : goal.invariant-turns
invariant-turns g l = IsCipherOf l.ctx l.out
ANTT
proof time_mul_plain/Invariants.antt <<'ANTT'
use Rattle.std.proofs.Common.{◌≡◌, length}
use Rattle.bfv_params.specs.Ciphers.{IsCipherOf}
use Rattle.linear_bench.proofs.time_mul_plain.Given as goal

abbrev pub invariant-turns : goal.invariant-turns
invariant-turns g l = record { out : IsCipherOf l.ctx l.out; scratch : length l.scratch ≡ length l.fn.scratch }
ANTT

build
compare_sets "$yardstick" "$rounds" add mul_plain
