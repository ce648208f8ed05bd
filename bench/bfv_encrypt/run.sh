#!/usr/bin/env bash
# Compares encryption with that of a fast C++ program, at `s8192` and `s16384`: a public key in coefficient form, which isn't
# transformed before. The other program is given the drawn words; here a small generator makes them while the time runs.
# Usage: bench/bfv_encrypt/run.sh YARDSTICK [ROUNDS]. It needs `rt`. YARDSTICK is a program that answers
# `YARDSTICK bench SET SECONDS encrypt` with a last line of JSON, in which "least" has the least
# microseconds of a call.
# The programs run in turn, round by round; a ratio is the best time of the proved code over the best of the other.
# The proved code is built for the processor x86-64-v2.
. "$(dirname "$0")/../common.sh"

yardstick=$(realpath -e "${1:?give the path of the program to compare with}")
rounds=${2:-5}
start encrypt_bench bfv_encrypt bfv_params rns_poly set_table word_mod ring_law rand_core rand_xoshiro anyhow
write_rows

cat > src/main.rt <<'RATTLE'
// Prints the least nanoseconds that an encryption takes, and a sum of what it wrote.
#![tactic(auto)]

mod rows;

ghost use Rattle.std.specs.Prelude.{◌≡◌, ◌≤◌, length, IfOk};
ghost use Rattle.set_table.specs.Sets.{data_of, degree_of};
ghost use Rattle.bfv_params.specs.Ciphers.{IsCipherOf};
ghost use Rattle.bfv_params.specs.Contexts.{scratch_rows_in};

use crate::rows::{fill, report};
use bfv_encrypt::encrypt;
use bfv_params::{Cipher, Context, Public};
use rand_core::SeedableRng;
use rand_xoshiro::SplitMix64;
use rns_poly::PolyBuf;
use set_table::SetName;
use std::alloc::{AllocError, Global};
use std::rt::Clock;
use std::time::Instant;

const TURNS: u64 = 40;

fn filled_key<const N: usize>(alloc: Global, ctx: &Context<N>) -> Result<Public<N>, AllocError>
    requires { (ctx.now).level ≡ length (data_of (ctx.now).set) }
    ensures { IfOk result (λ p. p.set ≡ (ctx.now).set) }
{
    let _set = ctx.set();
    let moduli = ctx.data_moduli();
    let mut key = Public::<N>::new(alloc, ctx)?;
    let mut row = [0; N];
    for i in 0..2 * moduli.len() {
        fill(&moduli[i % moduli.len()], i as u64, &mut row);
        key.set_row(i, &row);
    }
    Ok(key)
}

fn new_cipher<const N: usize>(alloc: Global, ctx: &Context<N>) -> Result<Cipher<N>, AllocError>
    ensures { IfOk result (λ c. IsCipherOf (ctx.now) c) }
{
    Cipher::<N>::new(alloc, ctx)
}

fn scratch_of<const N: usize>(alloc: Global, ctx: &Context<N>) -> Result<PolyBuf<N>, AllocError>
    requires { N ≤ 32768 }
    ensures { IfOk result (λ b. length b ≡ scratch_rows_in (ctx.now)) }
{
    PolyBuf::<N>::new(alloc, ctx.scratch_rows())
}

fn time_encrypt<const N: usize, R: Print + Clock>(rt: &R, ctx: &Context<N>, public: &Public<N>, out: &mut Cipher<N>, scratch: &mut PolyBuf<N>) -> anyhow::Result<()>
    requires degree { N ≤ 32768 }
    requires level { (ctx.now).level ≡ length (data_of (ctx.now).set) }
    requires public_set { (public.now).set ≡ (ctx.now).set }
    requires out_of { IsCipherOf (ctx.now) (out.old) }
    requires scratch { length scratch.old ≡ scratch_rows_in (ctx.now) }
{
    let mut plain = [0; N];
    fill(ctx.plain_modulus(), 300, &mut plain);
    let mut rng = SplitMix64::seed_from_u64(1);
    let mut least = u128::MAX;
    'turns: for _ in 0..TURNS {
        let start = Instant::now(rt)?;
        encrypt(ctx, public, &plain, out, scratch, &mut rng);
        least = least.min(start.elapsed(rt)?.as_nanos());
    }
    report(rt, "encrypt", ctx.set(), least, out.view().slice())?;
    Ok(())
}

fn measure_in<const N: usize, R: Print + Clock>(rt: &R, alloc: Global, ctx: &Context<N>) -> anyhow::Result<()>
    requires degree { N ≤ 32768 }
    requires level { (ctx.now).level ≡ length (data_of (ctx.now).set) }
{
    let public = filled_key(alloc, ctx)?;
    let mut out = new_cipher(alloc, ctx)?;
    let mut scratch = scratch_of(alloc, ctx)?;
    time_encrypt(rt, ctx, &public, &mut out, &mut scratch)
}

fn measure<const N: usize, R: Print + Clock>(rt: &R, alloc: Global, set: SetName) -> anyhow::Result<()>
    requires degree { N ≡ degree_of set }
    requires limit { N ≤ 32768 }
{
    let ctx = Context::<N>::new(alloc, set)?;
    measure_in(rt, alloc, &ctx)
}

fn main(rt: HostRuntime) -> anyhow::Result<()> {
    measure::<8192, HostRuntime>(&rt, rt.alloc(), SetName::S8192)?;
    measure::<16384, HostRuntime>(&rt, rt.alloc(), SetName::S16384)
}
RATTLE
proof filled_key/Invariants.antt <<'ANTT'
use Rattle.std.proofs.Common.{◌≡◌}
use Rattle.encrypt_bench.proofs.filled_key.Given as goal

abbrev pub invariant-loop-i : goal.invariant-loop-i
invariant-loop-i g l = record { set : l.key.set ≡ l.ctx.set }
ANTT
proof time_encrypt/Invariants.antt <<'ANTT'
use Rattle.std.proofs.Common.{◌≡◌, length}
use Rattle.bfv_params.specs.Ciphers.{IsCipherOf}
use Rattle.encrypt_bench.proofs.time_encrypt.Given as goal

abbrev pub invariant-turns : goal.invariant-turns
invariant-turns g l = record {
  out_of : IsCipherOf l.ctx l.out;
  scratch : length l.scratch ≡ length l.fn.scratch;
}
ANTT

build
compare_sets "$yardstick" "$rounds" encrypt
