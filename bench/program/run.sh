#!/usr/bin/env bash
# Times whole commands of the program `bfv` on real files at `s8192` and `s16384`: `secret`, `public`, `relin`, `turn`,
# `encrypt`, `run` (the weighted sum of two ciphers as in README) and `decrypt`. Beside each stands the sum of what must be
# done at least: the operations of a fast C++ program, and SHA-256 over the files of keys and ciphers that the command reads
# and writes, by the kit's `sha2` alone. Then that SHA-256 is compared with the one of `openssl speed`, where there is an
# `openssl`.
# Usage: bench/program/run.sh YARDSTICK [ROUNDS [PROGRAM]]. It needs `rt`, python3 and a built `bfv`, which is that of this
# repository or else PROGRAM. YARDSTICK is a program that answers `YARDSTICK bench SET SECONDS OPERATION..` with a last line
# of JSON, in which "least" has the least microseconds of a call of each operation.
# Each round runs everything once, in turn; a time is the least of all rounds. That of a command is the processor time of its
# whole process, of the user and the system: its start, its files and the tables of its set too. That of an operation or of
# SHA-256 is the least wall time of many calls in a round; `openssl` takes its own processor time, in hundredths of a second.
# Wall times grow where others use the processors, and processor times less so: then the ratios come out too small.
# Files lie in a temporary folder, in that of TMPDIR where it is set; waiting for a disk isn't processor time.
# In the sum, `public` is two transforms there and one back for each modulus; `relin` and `turn` are one there for each row of
# the first part of every digit, one of the secret for each of these moduli, and one of the source for each data modulus; and
# `mulk` counts as one more `add`. Drawing from a seed and reading and printing a text of values aren't in it.
. "$(dirname "$0")/../common.sh"

yardstick=$(realpath -e "${1:?give the path of the program to compare with}")
rounds=${2:-10}
bfv=$(realpath -e "${3:-$repository/crates/bfv/out/bfv}")
start digest_bench sha2 anyhow

cat > src/main.rt <<'RATTLE'
// Prints the least nanoseconds that SHA-256 of so many bytes takes, for each number among the arguments.
#![tactic(auto)]

use sha2::{Digest, Sha256};
use std::env;
use std::rt::Clock;
use std::time::Instant;

const TURNS: u64 = 20;

fn time_digest<R: Print + Clock>(rt: &R, bytes: &mut [u8]) -> anyhow::Result<()> {
    let mut least = u128::MAX;
    'turns: for _ in 0..TURNS {
        let start = Instant::now(rt)?;
        let digest = Sha256::digest(&*bytes);
        least = least.min(start.elapsed(rt)?.as_nanos());
        if let Some(byte) = bytes.first_mut() {
            *byte = digest[0];
        }
    }
    println!(rt; "sha256_{} {least}", bytes.len())?;
    Ok(())
}

fn main(rt: HostRuntime) -> anyhow::Result<()> {
    for word in env::args(&rt)?.skip(1) {
        let size = word.parse::<usize>()?;
        let mut bytes = vec![in rt.alloc(); 0; size]?;
        time_digest(&rt, bytes.as_mut_slice())?;
    }
    Ok(())
}
RATTLE
build
cat > "$work/spent.py" <<'PYTHON'
"""Runs a program, and prints the nanoseconds of processor time that it took."""
import os
import sys

_, status, usage = os.wait4(os.posix_spawn(sys.argv[1], sys.argv[1:], os.environ), 0)
if status:
    sys.exit("failed: " + " ".join(sys.argv[1:]))
print(round(1e9 * (usage.ru_utime + usage.ru_stime)))
PYTHON

# make_inputs SET DEGREE: makes the folder of a set, with seeds, values, weights, the script, and the values that it gives.
make_inputs() {
    local number
    mkdir "$work/$1"
    cd "$work/$1"
    for number in 1 2 3 4 5 6; do printf '%032d' "$number" > "seed$number"; done
    printf '%s\n' "set $1" 'cipher a' 'cipher b' 'plain w' 'x = mulp a w' 'y = mulk b 3' 's = add x y' 'output s' > script
    awk -v degree="$2" 'BEGIN {
        for (i = 0; i < degree; i++) {
            a = 7 * i % 65537
            b = 65536 - i
            w = (5 * i + 1) % 65537
            print a > "a.txt"
            print b > "b.txt"
            print w > "w.txt"
            print (a * w + 3 * b) % 65537 > "expected.txt"
        }
    }'
    "$bfv" secret "$1" seed1 sec
    "$bfv" public sec seed2 pub
    "$bfv" encrypt pub seed4 b.txt b
}

# timed CALL WORD..: runs a command, and prints a line `CALL NANOSECONDS`.
timed() {
    local spent
    spent=$(python3 "$work/spent.py" "$bfv" "${@:2}")
    echo "$1 $spent"
}

# time_commands SET: a line for each command, and one for SHA-256 over each size of the files that they hash.
time_commands() {
    timed "secret_$1" secret "$1" seed1 sec
    timed "public_$1" public sec seed2 pub
    timed "relin_$1" relin sec seed5 rel
    timed "turn_$1" turn sec 3 seed6 tur
    timed "encrypt_$1" encrypt pub seed3 a.txt a
    timed "run_$1" run script sum a=a b=b w=w.txt
    timed "decrypt_$1" decrypt sec sum out.txt
    tr ' ' '\n' < out.txt | cmp - expected.txt >&2
    "$built" "$(size sec)" "$(size pub)" "$(size rel)"
}

# time_others SET: a line for each operation, and for SHA-256 of `openssl` over the size of a public key and of a cipher.
time_others() {
    least_in "$yardstick" "$1" ntt_forward ntt_inverse encode decode add mul_plain encrypt decrypt
    [ -z "$(command -v openssl)" ] || openssl speed -mr -seconds 1 -bytes "$(size pub)" sha256 2> "$work/openssl.txt" \
        | awk -F : -v size="$(size pub)" '/^\+F/ { printf "sha256_%d %.0f\n", size, 1e9 * size / $4 }'
}

size() { stat -c %s "$1"; }

# print_row COMMAND SET "FILE.." [COUNT OPERATION]..: prints the best time of a command, the sum of the best times of SHA-256
# over the files and of so many calls of each operation, and their ratio.
print_row() {
    local call="$1_$2" set=$2 sum=0 file
    for file in $3; do sum=$((sum + $(best proved "sha256_$(size "$work/$set/$file")"))); done
    shift 3
    while [ $# -gt 0 ]; do
        sum=$((sum + $1 * $(best other "$2_$set")))
        shift 2
    done
    awk -v command="${call%_*}" -v set="$set" -v program="$(best proved "$call")" -v sum="$sum" 'BEGIN {
        printf "%-8s %-7s %10.0f %10.0f %6.2f\n", command, set, program / 1000, sum / 1000, program / sum
    }'
}

# print_rows SET MODULI: prints the rows of a set that has so many data moduli.
print_rows() {
    print_row secret "$1" "sec"
    print_row public "$1" "sec pub" $((2 * $2)) ntt_forward "$2" ntt_inverse
    print_row relin "$1" "sec rel" $(($2 * $2 + 3 * $2 + 1)) ntt_forward
    print_row turn "$1" "sec tur" $(($2 * $2 + 3 * $2 + 1)) ntt_forward
    print_row encrypt "$1" "pub a" 1 encode 1 encrypt
    print_row run "$1" "a b sum" 1 encode 1 mul_plain 2 add
    print_row decrypt "$1" "sec sum" 1 decrypt 1 decode
}

make_inputs s8192 8192
make_inputs s16384 16384
for round in $(seq "$rounds"); do
    for set in s8192 s16384; do
        cd "$work/$set"
        time_others "$set" >> "$work/other/$round.txt"
        time_commands "$set" >> "$work/proved/$round.txt"
    done
done

printf '%-8s %-7s %10s %10s %6s\n' command set program sum ratio
print_rows s8192 4
print_rows s16384 8
for set in s8192 s16384; do
    [ -z "$(command -v openssl)" ] || print_ratio "SHA-256 beside openssl, $set" "sha256_$(size "$work/$set/pub")"
done
