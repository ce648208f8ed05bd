#!/usr/bin/env bash
# Compares key switching with that of a fast C++ program, at `s8192` and `s16384`: a relinearisation, of three parts to two, and
# a turn of two parts by one step, with the key in transformed form and in memory.
# Usage: bench/key_switch/run.sh YARDSTICK [ROUNDS]. It needs `rt`. YARDSTICK is a program that answers
# `YARDSTICK bench SET SECONDS relinearise turn` with a last line of JSON, in which "least" has the least
# microseconds of a call of each.
# The programs run in turn, round by round; a ratio is the best time of the proved code over the best of the other.
# The proved code is built for the processor x86-64-v2.
. "$(dirname "$0")/../common.sh"

yardstick=$(realpath -e "${1:?give the path of the program to compare with}")
rounds=${2:-5}
start switch_bench key_switch galois_turn bfv_params rns_poly set_table word_mod ring_law rand_core rand_chacha anyhow
write_rows

cat > src/keys.rt <<'RATTLE'
//! Drawn keys in memory.

ghost use Rattle.std.specs.Prelude.{◌≡◌, ◌+◌, ◌*◌, ◌<◌, ◌≤◌, length, IfOk, IsSome, Contains};
ghost use Rattle.set_table.specs.Sets.{data_of, key_of, special_of};
ghost use Rattle.rns_poly.specs.Rows.{AreReduced};
ghost use Rattle.bfv_params.specs.Contexts.{data_in, scratch_rows_in};
ghost use Rattle.bfv_params.specs.Kept.{IsElement};
ghost use Rattle.bfv_params.specs.Rows.{ReducedInTurn};
ghost use Rattle.key_switch.specs.Memory.{memory_state};

use bfv_params::{Context, Secret, SwitchKey};
use key_switch::{MemKeys, make_digit, relin_source, turn_source};
use rand_chacha::ChaCha20Rng;
use rand_core::SeedableRng;
use rns_poly::{PolyBuf, View, ViewMut};
use set_table::KeyKind;
use std::alloc::{AllocError, Global};

fn source_into<const N: usize>(
    ctx: &Context<N>,
    secret: &Secret<N>,
    kind: KeyKind,
    element: u32,
    out: ViewMut<'_, N>,
)
    requires secret_set { (secret.now).set ≡ (ctx.now).set }
    requires count { length out.old ≡ (ctx.now).level }
    ensures { AreReduced N (data_in (ctx.now)) out.new }
{
    match kind {
        KeyKind::Relin => relin_source(ctx, secret, out),
        KeyKind::Turn => turn_source(ctx, secret, element, out),
    }
}

/// The source of a key.
fn source_of<const N: usize>(
    alloc: Global,
    ctx: &Context<N>,
    secret: &Secret<N>,
    key: &SwitchKey<N>,
) -> Result<PolyBuf<N>, AllocError>
    requires secret_set { (secret.now).set ≡ (ctx.now).set }
    ensures count { IfOk result (λ rows. length rows ≡ (ctx.now).level) }
    ensures reduced { IfOk result (λ rows. AreReduced N (data_in (ctx.now)) rows) }
{
    let mut rows = PolyBuf::<N>::new(alloc, ctx.data_moduli().len())?;
    source_into(ctx, secret, key.kind(), key.element(), rows.view_mut());
    Ok(rows)
}

/// Puts the rows of digit i into a key.
fn put_digit<const N: usize>(key: &mut SwitchKey<N>, count: usize, i: usize, digit: View<'_, N>)
    requires degree { N ≤ 32768 }
    requires count { count ≡ length (data_of (key.old).set) + 1 }
    requires index { i < length (data_of (key.old).set) }
    requires rows { length digit.rows.now ≡ 2 * count }
    requires reduced { ReducedInTurn N count (key_of (key.old).set) digit.rows.now }
    ensures set { (key.new).set ≡ (key.old).set }
    ensures kind { (key.new).kind ≡ (key.old).kind }
    ensures element { (key.new).element ≡ (key.old).element }
{
    for r in 0..digit.rows() {
        key.set_row(i * 2 * count + r, digit.row(r));
    }
}

/// Draws digit i of a key.
fn draw_digit<const N: usize>(
    ctx: &Context<N>,
    secret: &Secret<N>,
    source: View<'_, N>,
    i: usize,
    digit: ViewMut<'_, N>,
    key: &mut SwitchKey<N>,
    scratch: &mut PolyBuf<N>,
    rng: &mut ChaCha20Rng,
)
    requires level { (ctx.now).level ≡ length (data_of (ctx.now).set) }
    requires special { IsSome (special_of (ctx.now).set) }
    requires secret_set { (secret.now).set ≡ (ctx.now).set }
    requires key_set { (key.old).set ≡ (ctx.now).set }
    requires index { i < (ctx.now).level }
    requires source_count { length source.rows.now ≡ (ctx.now).level }
    requires source_reduced { AreReduced N (data_in (ctx.now)) source.rows.now }
    requires count { length digit.old ≡ 2 * ((ctx.now).level + 1) }
    requires room { length scratch.old ≡ scratch_rows_in (ctx.now) }
    ensures set { (key.new).set ≡ (key.old).set }
    ensures kind { (key.new).kind ≡ (key.old).kind }
    ensures element { (key.new).element ≡ (key.old).element }
    ensures room { length scratch.new ≡ length scratch.old }
{
    make_digit(ctx, secret, source, i, &mut *digit, scratch, rng);
    put_digit(key, ctx.data_moduli().len() + 1, i, View { rows: digit });
}

/// Draws all digits of a key.
fn draw_key<const N: usize>(
    alloc: Global,
    ctx: &Context<N>,
    secret: &Secret<N>,
    key: &mut SwitchKey<N>,
    scratch: &mut PolyBuf<N>,
) -> Result<(), AllocError>
    requires level { (ctx.now).level ≡ length (data_of (ctx.now).set) }
    requires special { IsSome (special_of (ctx.now).set) }
    requires secret_set { (secret.now).set ≡ (ctx.now).set }
    requires key_set { (key.old).set ≡ (ctx.now).set }
    requires room { length scratch.old ≡ scratch_rows_in (ctx.now) }
    ensures set { (key.new).set ≡ (key.old).set }
    ensures kind { (key.new).kind ≡ (key.old).kind }
    ensures element { (key.new).element ≡ (key.old).element }
    ensures room { length scratch.new ≡ length scratch.old }
{
    let level = ctx.data_moduli().len();
    let source = source_of(alloc, ctx, secret, key)?;
    let mut digit = PolyBuf::<N>::new(alloc, 2 * (level + 1))?;
    let mut rng = ChaCha20Rng::from_seed([1; 32]);
    for i in 0..level {
        draw_digit(
            ctx,
            secret,
            source.view(),
            i,
            digit.view_mut(),
            key,
            scratch,
            &mut rng,
        );
    }
    Ok(())
}

/// A provider of one key, which is drawn for the secret 0.
pub fn drawn_keys<const N: usize>(
    alloc: Global,
    ctx: &Context<N>,
    kind: KeyKind,
    element: u32,
) -> Result<MemKeys<N>, AllocError>
    requires level { (ctx.now).level ≡ length (data_of (ctx.now).set) }
    requires special { IsSome (special_of (ctx.now).set) }
    requires element { IsElement N kind element }
    ensures set { IfOk result (λ keys. keys.set ≡ (ctx.now).set) }
    ensures has { IfOk result (λ keys. Contains (memory_state keys).pairs (record { 0 = kind; 1 = element })) }
{
    // Tells that N is the degree of a set.
    let _moduli = ctx.data_moduli();
    let secret = Secret::<N>::new(alloc, ctx)?;
    let mut scratch = PolyBuf::<N>::new(alloc, ctx.scratch_rows())?;
    let mut key = SwitchKey::<N>::new(alloc, ctx, kind, element)?;
    draw_key(alloc, ctx, &secret, &mut key, &mut scratch)?;
    let mut keys = MemKeys::new(alloc, ctx.set());
    keys.add_key(key)?;
    Ok(keys)
}
RATTLE
cat > src/main.rt <<'RATTLE'
// Prints the least nanoseconds that a relinearisation and a turn take, and a sum of what they wrote. The sums of a switched
// pair and other parts are timed on other rows of the same form.
#![tactic(auto)]

mod keys;
mod rows;

ghost use Rattle.std.specs.Prelude.{◌≡◌, ◌*◌, ◌<◌, ◌≤◌, length, IfOk, IsSome};
ghost use Rattle.set_table.specs.declared.KeyKind.TheVariants.{Turn};
ghost use Rattle.set_table.specs.Sets.{data_of, degree_of, special_of};
ghost use Rattle.rns_poly.specs.Rows.{AreReduced};
ghost use Rattle.bfv_params.specs.Contexts.{data_in};
ghost use Rattle.bfv_params.specs.Kept.{IsElement};

use crate::keys::drawn_keys;
use crate::rows::{fill, report};
use bfv_params::Context;
use galois_turn::turn_rows;
use key_switch::apply;
use rns_poly::{PolyBuf, View, ViewMut, add_into};
use set_table::{KeyKind, SetName};
use std::alloc::{AllocError, Global};
use std::rt::Clock;
use std::time::Instant;
use word_mod::Modulus;

const TURNS: u64 = 15;

fn fill_rows<const N: usize>(moduli: &[Modulus], rows: ViewMut<'_, N>)
    requires degree { N ≤ 32768 }
    requires count { length rows.old ≡ length moduli.now }
    ensures { AreReduced N moduli.now rows.new }
{
    for i in 0..moduli.len() {
        fill(&moduli[i], i as u64, &mut rows[i]);
    }
}

fn filled<const N: usize>(alloc: Global, ctx: &Context<N>) -> Result<PolyBuf<N>, AllocError>
    ensures count { IfOk result (λ rows. length rows ≡ (ctx.now).level) }
    ensures reduced { IfOk result (λ rows. AreReduced N (data_in (ctx.now)) rows) }
{
    let moduli = ctx.data_moduli();
    let mut rows = PolyBuf::<N>::new(alloc, moduli.len())?;
    fill_rows(moduli, rows.view_mut());
    Ok(rows)
}

/// Turns a part by one step.
fn turn_into<const N: usize>(ctx: &Context<N>, part: View<'_, N>, out: &mut PolyBuf<N>)
    requires degree { 2 ≤ N }
    requires part_count { length part.rows.now ≡ (ctx.now).level }
    requires part_reduced { AreReduced N (data_in (ctx.now)) part.rows.now }
    requires count { length out.old ≡ (ctx.now).level }
    ensures count { length out.new ≡ (ctx.now).level }
    ensures reduced { AreReduced N (data_in (ctx.now)) out.new }
{
    let _moduli = ctx.data_moduli();
    turn_rows(ctx, 3, part, out.view_mut());
}

fn time_relinearise<const N: usize, R: Print + Clock>(rt: &R, alloc: Global, ctx: &Context<N>) -> anyhow::Result<()>
    requires level { (ctx.now).level ≡ length (data_of (ctx.now).set) }
    requires special { IsSome (special_of (ctx.now).set) }
{
    let moduli = ctx.data_moduli();
    let mut keys = drawn_keys(alloc, ctx, KeyKind::Relin, 0)?;
    let mut scratch = PolyBuf::<N>::new(alloc, ctx.scratch_rows())?;
    let part = filled(alloc, ctx)?;
    let mut pair = PolyBuf::<N>::new(alloc, 2 * moduli.len())?;
    let mut sum = PolyBuf::<N>::new(alloc, moduli.len())?;
    let mut least = u128::MAX;
    'turns: for _ in 0..TURNS {
        let start = Instant::now(rt)?;
        let _done = apply(ctx, &mut keys, KeyKind::Relin, 0, part.view(), pair.view_mut(), &mut scratch).is_ok();
        add_into(moduli, part.view(), part.view(), sum.view_mut());
        add_into(moduli, part.view(), part.view(), sum.view_mut());
        least = least.min(start.elapsed(rt)?.as_nanos());
    }
    report(rt, "relinearise", ctx.set(), least, pair.view().slice())?;
    Ok(())
}

fn time_turn<const N: usize, R: Print + Clock>(rt: &R, alloc: Global, ctx: &Context<N>) -> anyhow::Result<()>
    requires level { (ctx.now).level ≡ length (data_of (ctx.now).set) }
    requires special { IsSome (special_of (ctx.now).set) }
    requires element { IsElement N Turn 3 }
    requires degree { 2 ≤ N }
{
    let moduli = ctx.data_moduli();
    let mut keys = drawn_keys(alloc, ctx, KeyKind::Turn, 3)?;
    let mut scratch = PolyBuf::<N>::new(alloc, ctx.scratch_rows())?;
    let part = filled(alloc, ctx)?;
    let mut pair = PolyBuf::<N>::new(alloc, 2 * moduli.len())?;
    let mut sum = PolyBuf::<N>::new(alloc, moduli.len())?;
    let mut first = PolyBuf::<N>::new(alloc, moduli.len())?;
    let mut second = PolyBuf::<N>::new(alloc, moduli.len())?;
    let mut least = u128::MAX;
    'turns: for _ in 0..TURNS {
        let start = Instant::now(rt)?;
        turn_into(ctx, part.view(), &mut first);
        turn_into(ctx, part.view(), &mut second);
        let _done = apply(ctx, &mut keys, KeyKind::Turn, 3, second.view(), pair.view_mut(), &mut scratch).is_ok();
        add_into(moduli, first.view(), second.view(), sum.view_mut());
        least = least.min(start.elapsed(rt)?.as_nanos());
    }
    report(rt, "turn", ctx.set(), least, pair.view().slice())?;
    Ok(())
}

fn measure<const N: usize, R: Print + Clock>(rt: &R, alloc: Global, set: SetName) -> anyhow::Result<()>
    requires degree { N ≡ degree_of set }
    requires some { 2 ≤ N }
    requires special { IsSome (special_of set) }
    requires element { IsElement N Turn 3 }
{
    let ctx = Context::<N>::new(alloc, set)?;
    time_relinearise(rt, alloc, &ctx)?;
    time_turn(rt, alloc, &ctx)
}

fn main(rt: HostRuntime) -> anyhow::Result<()> {
    measure::<8192, HostRuntime>(&rt, rt.alloc(), SetName::S8192)?;
    measure::<16384, HostRuntime>(&rt, rt.alloc(), SetName::S16384)
}
RATTLE
proof fill_rows/Invariants.antt <<'ANTT'
use Rattle.std.proofs.Common.{ℕ, ◌<◌, [], get_or}
use Rattle.ring_law.specs.Rows.{IsReduced}
use Rattle.switch_bench.proofs.fill_rows.Given as goal

abbrev pub invariant-loop-i : goal.invariant-loop-i
invariant-loop-i g l = (j : ℕ) → j < l.i → IsReduced g.row.N (get_or l.moduli j 0) (get_or l.rows j [])
ANTT
proof keys/put_digit/Invariants.antt <<'ANTT'
use Rattle.std.proofs.Common.{◌≡◌}
use Rattle.switch_bench.proofs.keys.put_digit.Given as goal

abbrev pub invariant-loop-r : goal.invariant-loop-r
invariant-loop-r g l = record { set : l.key.set ≡ l.initial.key.set; kind : l.key.kind ≡ l.initial.key.kind; element : l.key.element ≡ l.initial.key.element }
ANTT
proof keys/put_digit/Answers.antt <<'ANTT'
use Rattle.std.proofs.Common.{rules, ◌≡◌, ◌∙◌, ◌+◌, ◌*◌, ◌%◌, ◌<◌, ℕ, List, [], ap, arith, get_or, length, slice_index, subst, sym}
use Rattle.std.proofs.Math.Nat.{mul-add-mod_self_right}
use Rattle.std.proofs.lemmas.Option.{get_or_from_slice_get}
use Rattle.set_table.specs.declared.SetName.{SetName}
use Rattle.set_table.specs.Sets.{data_of, key_of}
use Rattle.ring_law.specs.Rows.{IsReduced}
use Rattle.key_switch.proofs.DigitRows.{digit_within}
use Rattle.switch_bench.proofs.keys.put_digit.Goals as goal

pub set_row-requires : goal.set_row-requires
set_row-requires g c =
    let n : ℕ = g.row.N in
    let set : SetName = c.args.key.now.set in
    let digit : List (List ℕ) = c.args.digit.rows.now in
    let moduli : ℕ = length (data_of set) in
    let place : ℕ = c.args.i * 2 * c.args.count + c.loop-r.r in
    let within : c.loop-r.r < 2 * c.args.count = omega (arith, c.rows-r-end.ensures, c.requires.rows) in
    let last = digit_within moduli c.args.count c.args.i c.requires.index c.requires.count in
    let in_range : place < 2 * moduli * (moduli + 1) = omega (arith, last, within) in
    let row : get_or digit c.loop-r.r [] ≡ c.row.result.now = get_or_from_slice_get digit c.loop-r.r c.row.result.now [] c.row.ensures in
    let turn : c.loop-r.r % c.args.count ≡ place % (moduli + 1)
    = sym (mul-add-mod_self_right (c.args.i * 2) c.args.count c.loop-r.r) ∙ ap (λ m. place % m) c.requires.count in
    let reduced : IsReduced n (slice_index (key_of set) (place % (moduli + 1))) c.row.result.now
    = subst (λ found. IsReduced n (slice_index (key_of set) (place % (moduli + 1))) found) row
    (subst (λ p. IsReduced n (slice_index (key_of set) p) (get_or digit c.loop-r.r [])) turn (c.requires.reduced c.loop-r.r (omega (arith, within, c.requires.rows)))) in (
      search rules,
      (
        omega (arith, c.requires.degree),
        (
          subst (λ (s : SetName). place < 2 * length (data_of s) * (length (data_of s) + 1)) (sym c.loop-r.invariant.set) in_range,
          subst (λ (s : SetName). IsReduced n (slice_index (key_of s) (place % (length (data_of s) + 1))) c.row.result.now) (sym c.loop-r.invariant.set) reduced,
        ),
      ),
    )
ANTT
proof keys/draw_key/Invariants.antt <<'ANTT'
use Rattle.std.proofs.Common.{◌≡◌, ◌+◌, ◌*◌, length}
use Rattle.switch_bench.proofs.keys.draw_key.Given as goal

abbrev pub invariant-loop-i : goal.invariant-loop-i
invariant-loop-i g l = record {
  set : l.key.set ≡ l.initial.key.set;
  kind : l.key.kind ≡ l.initial.key.kind;
  element : l.key.element ≡ l.initial.key.element;
  scratch : length l.scratch ≡ length l.initial.scratch;
  digit : length l.digit ≡ 2 * (l.level + 1);
}
ANTT
for call in relinearise turn; do
    case $call in relinearise) pair="(Relin, 0)" more="" ;; turn) pair="(Turn, 3)" more=" first : length l.first ≡ l.ctx.level; second : length l.second ≡ l.ctx.level;" ;; esac
    proof time_$call/Invariants.antt <<ANTT
use Rattle.std.proofs.Common.{◌≡◌, ◌*◌, length, Contains}
use Rattle.set_table.specs.declared.KeyKind.TheVariants.{Relin, Turn}
use Rattle.bfv_params.specs.Contexts.{scratch_rows_in}
use Rattle.key_switch.specs.Memory.{memory_state}
use Rattle.switch_bench.proofs.time_$call.Given as goal

abbrev pub invariant-turns : goal.invariant-turns
invariant-turns g l = record {
  set : l.keys.set ≡ l.ctx.set;
  has : Contains (memory_state l.keys).pairs $pair;
  pair : length l.pair ≡ 2 * l.ctx.level;
  sum : length l.sum ≡ l.ctx.level;
  room : length l.scratch ≡ scratch_rows_in l.ctx;$more
}
ANTT
done

build
compare_sets "$yardstick" "$rounds" relinearise turn
