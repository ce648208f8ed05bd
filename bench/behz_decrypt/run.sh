#!/usr/bin/env bash
# Compares decryption with that of a fast C++ program, at `s8192` and `s16384`: a cipher of two parts in coefficient form, and a
# secret that isn't transformed before.
# Usage: bench/behz_decrypt/run.sh YARDSTICK [ROUNDS]. It needs `rt`. YARDSTICK is a program that answers
# `YARDSTICK bench SET SECONDS decrypt` with a last line of JSON, in which "least" has the least
# microseconds of a call.
# The programs run in turn, round by round; a ratio is the best time of the proved code over the best of the other.
# The proved code is built for the processor x86-64-v2.
. "$(dirname "$0")/../common.sh"

yardstick=$(realpath -e "${1:?give the path of the program to compare with}")
rounds=${2:-5}
start decrypt_bench behz_decrypt bfv_params rns_poly set_table word_mod ring_law anyhow
write_rows

cat > src/main.rt <<'RATTLE'
// Prints the least nanoseconds that a decryption takes, and a sum of what it wrote.
#![tactic(auto)]

mod rows;

ghost use Rattle.std.specs.Prelude.{◌≡◌, ◌≤◌, length, nat_abs, IfOk};
ghost use Rattle.set_table.specs.Sets.{degree_of};
ghost use Rattle.ring_law.specs.Polynomials.{AllWithin};
ghost use Rattle.ring_law.specs.Rows.{listed_polynomial};
ghost use Rattle.bfv_params.specs.Contexts.{scratch_rows_in};
ghost use Rattle.bfv_params.specs.Ciphers.{IsCipherOf};

use crate::rows::{fill, report};
use behz_decrypt::decrypt;
use bfv_params::{Cipher, Context, Secret};
use rns_poly::PolyBuf;
use set_table::SetName;
use std::alloc::{AllocError, Global};
use std::rt::Clock;
use std::time::Instant;

const TURNS: u64 = 40;

fn ternary(word: u64) -> i8
    ensures { nat_abs result ≤ 1 }
{
    match word % 3 {
        0 => -1,
        1 => 0,
        _ => 1,
    }
}

fn fill_small<const N: usize>(small: &mut [i8; N])
    ensures { AllWithin N 1 (listed_polynomial small.new) }
{
    let mut word: u64 = 1;
    for k in 0..N {
        word = word.wrapping_mul(0x5851_f42d_4c95_7f2d).wrapping_add(0x1405_7b7e_f767_814f);
        small[k] = ternary(word / 4096);
    }
}

fn filled_cipher<const N: usize>(alloc: Global, ctx: &Context<N>) -> Result<Cipher<N>, AllocError>
    ensures { IfOk result (IsCipherOf (ctx.now)) }
{
    let moduli = ctx.data_moduli();
    let mut cipher = Cipher::<N>::new(alloc, ctx)?;
    let mut row = [0; N];
    for i in 0..2 * moduli.len() {
        fill(&moduli[i % moduli.len()], i as u64, &mut row);
        cipher.set_row(i, &row);
    }
    Ok(cipher)
}

fn filled_secret<const N: usize>(alloc: Global, ctx: &Context<N>) -> Result<Secret<N>, AllocError>
    requires { N ≤ 32768 }
    ensures { IfOk result (λ s. s.set ≡ (ctx.now).set) }
{
    let mut small = [0; N];
    fill_small(&mut small);
    let mut secret = Secret::<N>::new(alloc, ctx)?;
    secret.set(&small);
    Ok(secret)
}

fn time_decrypt<const N: usize, R: Print + Clock>(
    rt: &R,
    ctx: &Context<N>,
    secret: &Secret<N>,
    cipher: &Cipher<N>,
    scratch: &mut PolyBuf<N>,
) -> anyhow::Result<()>
    requires degree { N ≤ 32768 }
    requires secret_set { (secret.now).set ≡ (ctx.now).set }
    requires cipher_of { IsCipherOf (ctx.now) (cipher.now) }
    requires room { scratch_rows_in (ctx.now) ≤ length scratch.old }
{
    let mut row = [[0; N]];
    let mut least = u128::MAX;
    'turns: for _ in 0..TURNS {
        let start = Instant::now(rt)?;
        decrypt(ctx, secret, cipher, &mut row[0], scratch);
        least = least.min(start.elapsed(rt)?.as_nanos());
    }
    report(rt, "decrypt", ctx.set(), least, &row)?;
    Ok(())
}

fn measure_in<const N: usize, R: Print + Clock>(rt: &R, alloc: Global, ctx: &Context<N>) -> anyhow::Result<()>
    requires { N ≤ 32768 }
{
    let secret = filled_secret(alloc, ctx)?;
    let cipher = filled_cipher(alloc, ctx)?;
    let mut scratch = PolyBuf::<N>::new(alloc, ctx.scratch_rows())?;
    time_decrypt(rt, ctx, &secret, &cipher, &mut scratch)
}

fn measure<const N: usize, R: Print + Clock>(rt: &R, alloc: Global, set: SetName) -> anyhow::Result<()>
    requires degree { N ≡ degree_of set }
    requires limit { N ≤ 32768 }
{
    let ctx = Context::<N>::new(alloc, set)?;
    measure_in(rt, alloc, &ctx)
}

fn main(rt: HostRuntime) -> anyhow::Result<()> {
    measure::<8192, HostRuntime>(&rt, rt.alloc(), SetName::S8192)?;
    measure::<16384, HostRuntime>(&rt, rt.alloc(), SetName::S16384)
}
RATTLE
proof fill_small/Invariants.antt <<'ANTT'
use Rattle.std.proofs.Common.{◌≡◌, length}
use Rattle.ring_law.specs.Polynomials.{AllWithin}
use Rattle.ring_law.specs.Rows.{listed_polynomial}
use Rattle.decrypt_bench.proofs.fill_small.Given as goal

abbrev pub invariant-loop-k : goal.invariant-loop-k
invariant-loop-k g l = record { count : length l.small ≡ g.row.N; within : AllWithin l.k 1 (listed_polynomial l.small) }
ANTT
proof filled_cipher/Invariants.antt <<'ANTT'
use Rattle.std.proofs.Common.{◌≡◌}
use Rattle.decrypt_bench.proofs.filled_cipher.Given as goal

abbrev pub invariant-loop-i : goal.invariant-loop-i
invariant-loop-i g l = record { set : l.cipher.set ≡ l.ctx.set; level : l.cipher.level ≡ l.ctx.level; parts : l.cipher.parts ≡ 2 }
ANTT
proof time_decrypt/Invariants.antt <<'ANTT'
use Rattle.std.proofs.Common.{◌≤◌, length}
use Rattle.bfv_params.specs.Contexts.{scratch_rows_in}
use Rattle.decrypt_bench.proofs.time_decrypt.Given as goal

abbrev pub invariant-turns : goal.invariant-turns
invariant-turns g l = scratch_rows_in l.ctx ≤ length l.scratch
ANTT

build
compare_sets "$yardstick" "$rounds" decrypt
