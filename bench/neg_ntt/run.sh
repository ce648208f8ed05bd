#!/usr/bin/env bash
# Compares the transform there and back of 16384 words with the same algorithm in C at -O3: layer by layer, with words below
# 4q and 2q, by Shoup's products.
# Usage: bench/neg_ntt/run.sh [ROUNDS [PROGRAM]]. It needs `rt` and a C compiler (CC, or else cc).
# PROGRAM is a further program to compare with, which answers `PROGRAM bench s16384 SECONDS ntt_forward ntt_inverse` with a
# last line of JSON, in which "least" has the least microseconds of a call of each.
# The programs run in turn, round by round; a ratio is the best time of the proved code over the best time of the other.
# The proved code is built for the processor x86-64-v2.
. "$(dirname "$0")/../common.sh"

rounds=${1:-40}
other=${2:+$(realpath -e "$2")}
start ntt_bench word_mod lane_rows ring_law neg_ntt

cat > src/main.rt <<'RATTLE'
// Prints the nanoseconds that a transform of 16384 words takes there and back, and a sum of what it wrote.
#![tactic(auto)]

ghost use Rattle.std.specs.Prelude.{◌<◌, ◌≤◌};
ghost use Rattle.ring_law.specs.Rows.{IsReduced};
ghost use Rattle.neg_ntt.specs.Parameters.{IsDegree};

use neg_ntt::Transform;
use std::alloc::Global;
use std::io;
use std::rt::Clock;
use std::time::Instant;
use word_mod::Modulus;

const TURNS: u64 = 20;
const Q: u64 = 0xffff_fffd_8001;
const PSI: u64 = 0x2cd9_a219_5246;

fn fill<const N: usize>(bound: u64, row: &mut [u64; N])
    requires positive { 0 < bound }
    requires degree { N ≤ 32768 }
    ensures { IsReduced N bound row.new }
{
    let mut word: u64 = 1;
    for i in 0..N {
        word = word.wrapping_mul(0x5851_f42d_4c95_7f2d).wrapping_add(0x1405_7b7e_f767_814f);
        row[i] = word % bound;
    }
}

fn check_sum(row: &[u64]) -> u64 {
    let mut sum: u64 = 0;
    for word in row {
        sum = sum.wrapping_mul(31).wrapping_add(*word);
    }
    sum
}

fn report<R: Print + Clock>(rt: &R, call: &str, start: Instant, row: &[u64]) -> io::Result<()> {
    let nanos = start.elapsed(rt)?.as_nanos() / u128::from(TURNS);
    println!(rt; "{call} {nanos} {}", check_sum(row))
}

fn forward<R: Print + Clock, const N: usize>(rt: &R, transform: &Transform<N>, row: &mut [u64; N]) -> io::Result<()>
    requires { IsReduced N transform.now.modulus row.old }
    ensures { IsReduced N transform.now.modulus row.new }
{
    let start = Instant::now(rt)?;
    'turns: for _ in 0..TURNS {
        transform.forward(row);
    }
    report(rt, "forward", start, row)
}

fn inverse<R: Print + Clock, const N: usize>(rt: &R, transform: &Transform<N>, row: &mut [u64; N]) -> io::Result<()>
    requires { IsReduced N transform.now.modulus row.old }
{
    let start = Instant::now(rt)?;
    'turns: for _ in 0..TURNS {
        transform.inverse(row);
    }
    report(rt, "inverse", start, row)
}

fn both<R: Print + Clock, const N: usize>(rt: &R, alloc: Global, m: &Modulus, psi: u64) -> io::Result<()>
    requires degree { IsDegree N }
    requires root_below { psi < m.now }
{
    let Ok(transform) = Transform::<N>::new(alloc, m, psi) else {
        return println!(rt; "no transform");
    };
    let mut row = [0; N];
    fill(m.value(), &mut row);
    forward(rt, &transform, &mut row)?;
    inverse(rt, &transform, &mut row)
}

fn main(rt: HostRuntime) -> io::Result<()> {
    let Ok(m) = Modulus::new(Q) else {
        return println!(rt; "no modulus");
    };
    if PSI < m.value() {
        both::<HostRuntime, 16384>(&rt, rt.alloc(), &m, PSI)?;
    }
    Ok(())
}
RATTLE
proof fill/Invariants.antt <<'ANTT'
use Rattle.std.proofs.Common.{ℕ, ◌<◌, get_or}
use Rattle.ntt_bench.proofs.fill.Given as goal

abbrev pub invariant-loop-i : goal.invariant-loop-i
invariant-loop-i g l = (j : ℕ) → j < l.i → get_or l.row j 0 < l.bound
ANTT
for call in forward inverse; do
    proof $call/Invariants.antt <<ANTT
use Rattle.ring_law.specs.Rows.{IsReduced}
use Rattle.ntt_bench.proofs.$call.Given as goal

abbrev pub invariant-turns : goal.invariant-turns
invariant-turns g l = IsReduced g.row.N l.transform.modulus l.row
ANTT
done

build_c <<'C'
#include <inttypes.h>
#include <stdint.h>
#include <stdio.h>
#include <time.h>

enum { LOG = 14, WORDS = 1 << LOG, TURNS = 20 };
static const uint64_t Q = 0xfffffffd8001, PSI = 0x2cd9a2195246;
typedef struct { uint64_t w, shoup; } Factor;
static Factor roots[WORDS], inverse_roots[WORDS], inverse_degree;
static uint64_t row[WORDS];

static uint64_t high_product(uint64_t x, uint64_t y) { return (unsigned __int128)x * y >> 64; }
static uint64_t reduce_once(uint64_t bound, uint64_t x) { return x >= bound ? x - bound : x; }
static uint64_t scale_lazy(uint64_t q, Factor f, uint64_t x) { return x * f.w - high_product(x, f.shoup) * q; }
static uint64_t mul(uint64_t a, uint64_t b) { return (unsigned __int128)a * b % Q; }
static Factor factor(uint64_t w) { return (Factor){w, ((unsigned __int128)w << 64) / Q}; }
static uint64_t power(uint64_t x, uint64_t e) {
    uint64_t y = 1;
    for (; e; e /= 2, x = mul(x, x)) if (e % 2) y = mul(y, x);
    return y;
}
static void powers_reversed(uint64_t x, Factor *table) {
    table[0] = factor(1);
    for (int s = 0; s < LOG; s++) {
        uint64_t next = power(x, (uint64_t)1 << (LOG - 1 - s));
        for (size_t i = 0, count = (size_t)1 << s; i < count; i++) table[count + i] = factor(mul(table[i].w, next));
    }
}

__attribute__((noinline)) static void forward(uint64_t q, const Factor *roots, uint64_t *row) {
    for (size_t blocks = 1, half = WORDS / 2; blocks < WORDS; blocks *= 2, half /= 2)
        for (size_t i = 0; i < blocks; i++) {
            Factor f = roots[blocks + i];
            uint64_t *restrict lo = row + 2 * half * i, *restrict hi = lo + half;
            for (size_t r = 0; r < half; r++) {
                uint64_t x = reduce_once(2 * q, lo[r]), product = scale_lazy(q, f, hi[r]);
                lo[r] = x + product;
                hi[r] = x + 2 * q - product;
            }
        }
    for (size_t i = 0; i < WORDS; i++) row[i] = reduce_once(q, reduce_once(2 * q, row[i]));
}
__attribute__((noinline)) static void inverse(uint64_t q, const Factor *roots, Factor scale, uint64_t *row) {
    for (size_t blocks = WORDS / 2, half = 1; blocks; blocks /= 2, half *= 2)
        for (size_t i = 0; i < blocks; i++) {
            Factor f = roots[blocks + i];
            uint64_t *restrict lo = row + 2 * half * i, *restrict hi = lo + half;
            for (size_t r = 0; r < half; r++) {
                uint64_t sum = reduce_once(2 * q, lo[r] + hi[r]), difference = lo[r] + 2 * q - hi[r];
                lo[r] = sum;
                hi[r] = scale_lazy(q, f, difference);
            }
        }
    for (size_t i = 0; i < WORDS; i++) row[i] = reduce_once(q, scale_lazy(q, scale, row[i]));
}

static uint64_t check_sum(void) {
    uint64_t sum = 0;
    for (size_t i = 0; i < WORDS; i++) sum = sum * 31 + row[i];
    return sum;
}
static uint64_t now(void) {
    struct timespec t;
    clock_gettime(CLOCK_MONOTONIC, &t);
    return (uint64_t)t.tv_sec * 1000000000 + t.tv_nsec;
}
static void report(const char *call, uint64_t start) {
    printf("%s %" PRIu64 " %" PRIu64 "\n", call, (now() - start) / TURNS, check_sum());
}

int main(void) {
    powers_reversed(PSI, roots);
    powers_reversed(power(PSI, 2 * WORDS - 1), inverse_roots);
    inverse_degree = factor(power(Q / 2 + 1, LOG));
    uint64_t word = 1;
    for (size_t i = 0; i < WORDS; i++) {
        word = word * 0x5851f42d4c957f2d + 0x14057b7ef767814f;
        row[i] = word % Q;
    }
    uint64_t start = now();
    for (int turn = 0; turn < TURNS; turn++) forward(Q, roots, row);
    report("forward", start);
    start = now();
    for (int turn = 0; turn < TURNS; turn++) inverse(Q, inverse_roots, inverse_degree, row);
    report("inverse", start);
}
C

build
for round in $(seq "$rounds"); do
    "$work/c/plain" > "$work/plain/$round.txt"
    "$work/c/native" > "$work/native/$round.txt"
    "$built" > "$work/proved/$round.txt"
    [ -z "$other" ] || least_of "$other" s16384 0.1 ntt_forward ntt_inverse | sed 's/^ntt_//' > "$work/other/$round.txt"
done

for call in forward inverse; do
    agree "$call"
    awk -v call="$call" -v rows="$(best proved "$call")" -v plain="$(best plain "$call")" -v native="$(best native "$call")" \
        -v other="$([ -z "$other" ] || best other "$call")" 'BEGIN {
        printf "%-8s %7.1f us; C -O3 %7.1f us, ratio %.2f; C -O3 -march=native %7.1f us, ratio %.2f",
            call, rows / 1000, plain / 1000, rows / plain, native / 1000, rows / native
        if (other != "") printf "; other program %7.1f us, ratio %.2f", other / 1000, rows / other
        printf "\n"
    }'
done
