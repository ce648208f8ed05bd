#!/usr/bin/env bash
# Compares the conversions between bases with those of a fast C++ program, at 16384 coefficients and the bases of
# `s16384`: the Montgomery lift of one part, and the fast floor with the way back of one part.
# Usage: bench/fast_conv/run.sh YARDSTICK [ROUNDS]. It needs `rt`. YARDSTICK is a program that answers
# `YARDSTICK bench s16384 SECONDS piece_lift piece_floor_back` with a last line of JSON, in which "least" has the
# least microseconds of a call of each.
# The programs run in turn, round by round; a ratio is the best time of the proved code over the best of the other.
# The proved code is built for the processor x86-64-v2, and reduces each word that it reads and writes.
. "$(dirname "$0")/../common.sh"

yardstick=$(realpath -e "${1:?give the path of the program to compare with}")
rounds=${2:-5}
start conv_bench set_table word_mod ring_law res_base bfv_model fast_conv anyhow

cat > src/main.rt <<'RATTLE'
// Prints the least nanoseconds that each call takes, and a sum of what it wrote.
#![tactic(auto)]

ghost use Rattle.std.specs.Prelude.{◌≡◌, ◌+◌, ◌≤◌, length, slice_index, IsTrue, IfOk, EachIndex};
ghost use Rattle.std.specs.Int.{IsGcd};
ghost use Rattle.ring_law.specs.Moduli.{product};

use anyhow::Context;
use fast_conv::{FastFloor, MontLift, SkBack};
use res_base::Base;
use set_table::{M_SK, SetName};
use std::alloc::Global;
use std::rt::Clock;
use std::time::Instant;
use word_mod::Modulus;

const TURNS: u64 = 60;

fn data_moduli(alloc: Global, set: SetName) -> anyhow::Result<Vec<Modulus>> {
    let mut moduli = Vec::new(alloc);
    for i in 0..set.data_count() {
        moduli.push(Modulus::new(set.data_modulus(i)).ok().context("modulus")?)?;
    }
    Ok(moduli)
}

fn aux_moduli(alloc: Global, set: SetName) -> anyhow::Result<Vec<Modulus>> {
    let mut moduli = Vec::new(alloc);
    for i in 0..set.aux_count() {
        moduli.push(Modulus::new(set.aux_modulus(i)).ok().context("modulus")?)?;
    }
    Ok(moduli)
}

fn base(alloc: Global, moduli: &[Modulus]) -> anyhow::Result<Base> {
    if moduli.len() == 0 || moduli.len() > 32 {
        return Err(anyhow::anyhow!("no base of so many moduli"));
    }
    Ok(Base::new(alloc, moduli)?)
}

fn is_coprime(base: &Base, p: &Modulus) -> bool
    ensures { IsTrue result → IsGcd (product base.now) p.now 1 }
{
    p.inverse(base.product_mod(p)).is_some()
}

fn are_coprime(base: &Base, moduli: &[Modulus]) -> bool
    ensures { IsTrue result → EachIndex moduli.now (λ j. IsGcd (product base.now) (slice_index moduli.now j) 1) }
{
    for p in moduli {
        if !is_coprime(base, p) {
            return false;
        }
    }
    true
}

fn floor_of(alloc: Global, from: &Base, to: &[Modulus], t: u64) -> anyhow::Result<FastFloor>
    ensures { IfOk result (λ c. c ≡ record { from = from.now; to = to.now; factor = t }) }
{
    if !are_coprime(from, to) {
        return Err(anyhow::anyhow!("moduli not coprime"));
    }
    Ok(FastFloor::new(alloc, from, to, t)?)
}

fn back_of(alloc: Global, base: &Base, sk: &Modulus, to: &[Modulus]) -> anyhow::Result<SkBack>
    ensures { IfOk result (λ c. c ≡ record { base = base.now; sk = sk.now; to = to.now }) }
{
    if !is_coprime(base, sk) {
        return Err(anyhow::anyhow!("moduli not coprime"));
    }
    let quarter = sk.value() / 4;
    if base.len() as u64 + quarter > (sk.value() - 1) / 2 {
        return Err(anyhow::anyhow!("no room for the overflow"));
    }
    Ok(SkBack::new(alloc, base, sk, to)?)
}

fn fill<const N: usize>(m: &Modulus, row: &mut [u64; N]) {
    let mut word: u64 = m.value();
    for k in 0..N {
        word = word.wrapping_mul(0x5851_f42d_4c95_7f2d).wrapping_add(0x1405_7b7e_f767_814f);
        row[k] = m.reduce(word);
    }
}

fn filled<const N: usize>(alloc: Global, moduli: &[Modulus]) -> anyhow::Result<Vec<[u64; N]>>
    requires { N ≤ 32768 }
{
    let mut rows = vec![in alloc; [0; N]; moduli.len()]?;
    for i in 0..moduli.len() {
        if i < rows.len() {
            fill(&moduli[i], &mut rows[i]);
        }
    }
    Ok(rows)
}

fn sum_of_words<const N: usize>(rows: &[[u64; N]]) -> u64 {
    let mut sum: u64 = 0;
    for row in rows {
        for k in 0..N {
            sum = sum.wrapping_mul(31).wrapping_add(row[k]);
        }
    }
    sum
}

fn time_lift<const N: usize, R: Print + Clock>(rt: &R, lift: &MontLift, from: &[[u64; N]], to: &mut [[u64; N]]) -> anyhow::Result<()>
    requires degree { N ≤ 32768 }
    requires from_rows { length from.now ≡ length lift.now.from }
    requires to_rows { length to.old ≡ length lift.now.to }
{
    let mut least = u128::MAX;
    'turns: for _ in 0..TURNS {
        let start = Instant::now(rt)?;
        lift.lift(from, to);
        least = least.min(start.elapsed(rt)?.as_nanos());
    }
    println!(rt; "piece_lift {least} {}", sum_of_words(to))?;
    Ok(())
}

fn time_floor_back<const N: usize, R: Print + Clock>(rt: &R, floor: &FastFloor, back: &SkBack, from: &[[u64; N]], aux: &mut [[u64; N]], to: &mut [[u64; N]]) -> anyhow::Result<()>
    requires degree { N ≤ 32768 }
    requires from_rows { length from.now ≡ length floor.now.from }
    requires aux_rows { length aux.old ≡ length floor.now.to }
    requires back_rows { length floor.now.to ≡ length back.now.base + 1 }
    requires to_rows { length to.old ≡ length back.now.to }
{
    let mut least = u128::MAX;
    'turns: for _ in 0..TURNS {
        let start = Instant::now(rt)?;
        floor.floor(from, aux);
        back.back(aux, to);
        least = least.min(start.elapsed(rt)?.as_nanos());
    }
    println!(rt; "piece_floor_back {least} {}", sum_of_words(to))?;
    Ok(())
}

fn measure<const N: usize, R: Print + Clock>(rt: &R, alloc: Global, set: SetName) -> anyhow::Result<()>
    requires { N ≤ 32768 }
{
    let data = data_moduli(alloc, set)?;
    let mut lifted = aux_moduli(alloc, set)?;
    let aux = base(alloc, &lifted)?;
    let sk = Modulus::new(M_SK).ok().context("modulus")?;
    lifted.push(sk)?;
    let from = base(alloc, &data)?;
    let lift = MontLift::new(alloc, &from, &lifted)?;
    let floor = floor_of(alloc, &from, &lifted, set.plain())?;
    let back = back_of(alloc, &aux, &sk, &data)?;
    let rows = filled::<N>(alloc, &data)?;
    let mut others = filled::<N>(alloc, &lifted)?;
    let mut out = filled::<N>(alloc, &data)?;
    if rows.len() != from.len() || others.len() != lifted.len() || out.len() != data.len() {
        return Err(anyhow::anyhow!("rows"));
    }
    if lifted.len() != aux.len() + 1 {
        return Err(anyhow::anyhow!("moduli"));
    }
    time_lift(rt, &lift, &rows, others.as_mut_slice())?;
    time_floor_back(rt, &floor, &back, &rows, others.as_mut_slice(), out.as_mut_slice())
}

fn main(rt: HostRuntime) -> anyhow::Result<()> {
    measure::<16384, HostRuntime>(&rt, rt.alloc(), SetName::S16384)
}
RATTLE
for function in is_coprime are_coprime; do
    for file in "$repository/crates/fast_conv/proofs/tests/$function"/*.antt; do
        sed 's/Rattle\.fast_conv\.proofs\.tests\./Rattle.conv_bench.proofs./' "$file" | proof "$function/$(basename "$file")"
    done
done

build
for round in $(seq "$rounds"); do
    least_of "$yardstick" s16384 0.2 piece_lift piece_floor_back > "$work/other/$round.txt"
    "$built" > "$work/proved/$round.txt"
done
for piece in piece_lift piece_floor_back; do print_ratio "$piece" "$piece"; done
