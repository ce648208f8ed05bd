# What the benchmarks share; each sources it first. It sets `repository`, and `work`, a folder that is removed at the end.
# Where KEPT_WORK is set, crates are copied with the work of earlier checks from their folders `out`. The prover looks whether
# that work fits, so this changes nothing but how long a build takes; without it all that is copied is proved from nothing.
set -euo pipefail

repository=$(cd "$(dirname "${BASH_SOURCE[0]}")/.." && pwd)
work=$(mktemp -d)
trap 'rm -rf "$work"' EXIT

# start PROGRAM LIBRARY..: enters the folder of a program in a new repository, which has a copy of the libraries
# and of each crate that they stand on.
start() {
    program=$1
    mkdir -p "$work"/{proved,other} "$work/repository/crates/$program/src"
    cd "$work/repository"
    git init -q
    echo 'Handles allowed: none.' > HANDLES
    echo "$program: ${*:2}" > crates.txt
    copy_crates "${@:2}"
    cd "crates/$program"
}

# Copies crates and those that they stand on. A crate of the kit isn't copied.
copy_crates() {
    local crate line part
    for crate in "$@"; do
        [ ! -d "crates/$crate" ] || continue
        line=$(grep "^$crate:" "$repository/crates.txt") || continue
        echo "$line" >> crates.txt
        mkdir "crates/$crate"
        for part in src specs proofs ${KEPT_WORK:+out}; do
            [ ! -d "$repository/crates/$crate/$part" ] || cp -a "$repository/crates/$crate/$part" "crates/$crate/"
        done
        copy_crates ${line#*:}
    done
}

# proof FILE: writes standard input to a file of the program's proofs.
proof() {
    mkdir -p "proofs/$(dirname "$1")"
    cat > "proofs/$1"
}

# Writes the module `rows`: rows of words to time a call on, and what is printed of it.
write_rows() {
    cat > src/rows.rt <<'RATTLE'
//! Rows to time calls on, and what is printed of a call.

ghost use Rattle.std.specs.Prelude.{◌≤◌};
ghost use Rattle.ring_law.specs.Rows.{IsReduced};

use set_table::SetName;
use std::io;
use word_mod::Modulus;

/// Writes words all over the range below the modulus.
pub fn fill<const N: usize>(m: &Modulus, seed: u64, row: &mut [u64; N])
    ensures { IsReduced N m.now row.new }
{
    let mut word = seed;
    for k in 0..N {
        word = word.wrapping_mul(0x5851_f42d_4c95_7f2d).wrapping_add(0x1405_7b7e_f767_814f);
        row[k] = m.reduce(word);
    }
}

/// Prints the call, its set and nanoseconds, and a sum of what it wrote.
pub fn report<const N: usize, R: Print>(rt: &R, call: &str, set: SetName, nanos: u128, rows: &[[u64; N]]) -> io::Result<()>
    requires { N ≤ 32768 }
{
    let mut sum: u64 = 0;
    for row in rows {
        for k in 0..N {
            sum = sum.wrapping_mul(31).wrapping_add(row[k]);
        }
    }
    println!(rt; "{call}_{} {nanos} {sum}", set.text())
}
RATTLE
    proof rows/fill/Invariants.antt <<ANTT
use Rattle.std.proofs.Common.{◌≡◌, length}
use Rattle.ring_law.specs.Rows.{IsReduced}
use Rattle.$program.proofs.rows.fill.Given as goal

abbrev pub invariant-loop-k : goal.invariant-loop-k
invariant-loop-k g l = record { words : length l.row ≡ g.row.N; reduced : IsReduced l.k l.m l.row }
ANTT
}

# Proves and builds the program, as `built`.
build() {
    built="$work/repository/crates/$program/out/$program"
    rt run > "$work/build.txt" 2>&1 || { cat "$work/build.txt" >&2; exit 1; }
}

# Builds the C program on standard input as `plain`, and as `native` for the processor that it runs on.
build_c() {
    mkdir "$work"/{c,plain,native}
    cat > "$work/c/bench.c"
    "${CC:-cc}" -O3 -o "$work/c/plain" "$work/c/bench.c"
    "${CC:-cc}" -O3 -march=native -o "$work/c/native" "$work/c/bench.c"
}

# least_of YARDSTICK SET SECONDS OPERATION..: a line `OPERATION NANOSECONDS` for each operation, from the last line that
# `YARDSTICK bench SET SECONDS OPERATION..` prints: JSON, with the least microseconds of a call of each in "least".
least_of() {
    "$1" bench "${@:2}" | tail -1 | sed 's/.*"least":{\([^}]*\)}.*/\1/' | tr ',' '\n' \
        | awk -F '[":]+' '{ printf "%s %.0f\n", $2, 1000 * $3 }'
}

# least_in YARDSTICK SET OPERATION..: the same at 0.2 seconds each, as lines `OPERATION_SET NANOSECONDS`.
least_in() { least_of "$1" "$2" 0.2 "${@:3}" | sed "s/ /_$2 /"; }

# best FOLDER CALL: the least nanoseconds of the lines `CALL NANOSECONDS ..` of all rounds.
best() { sed -n "s/^$2 \([0-9]*\).*/\1/p" "$work/$1"/*.txt | sort -n | head -1; }

# agree CALL: fails unless the first rounds of the proved program and of that in C wrote the same.
agree() {
    local proved plain
    proved=$(sed -n "s/^$1 [0-9]* //p" "$work/proved/1.txt")
    plain=$(sed -n "s/^$1 [0-9]* //p" "$work/plain/1.txt")
    [ "$proved" = "$plain" ] || { echo "$1: the two programs disagree" >&2; exit 1; }
}

# print_ratio LABEL CALL [OTHER]: prints the best time of a call of the proved program, that of the other program's call OTHER,
# or of the same call, and their ratio.
print_ratio() {
    awk -v label="$1" -v proved="$(best proved "$2")" -v other="$(best other "${3:-$2}")" 'BEGIN {
        printf "%-18s %8.1f us; the other program %8.1f us, ratio %.2f\n", label, proved / 1000, other / 1000, proved / other
    }'
}

# compare_sets YARDSTICK ROUNDS OPERATION..: runs both programs in turn at `s8192` and `s16384`, and prints the ratios. The
# proved program prints a line `OPERATION_SET NANOSECONDS ..` for each operation and set.
compare_sets() {
    local round set operation
    for round in $(seq "$2"); do
        for set in s8192 s16384; do
            least_in "$1" "$set" "${@:3}"
        done > "$work/other/$round.txt"
        "$built" > "$work/proved/$round.txt"
    done
    for operation in "${@:3}"; do
        for set in s8192 s16384; do print_ratio "$operation $set" "${operation}_$set"; done
    done
}
