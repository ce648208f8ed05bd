#!/usr/bin/env bash
# Runs the batch in `commands` in a folder of its own, with four seeds, and compares what it prints and computes with what
# is expected. The program may be named; it is the one of this repository where it isn't.
set -eu
here=$(cd "$(dirname "$0")" && pwd)
bfv=$(realpath "${1:-$here/../../crates/bfv/out/bfv}")
room=$(mktemp -d)
trap 'rm -r "$room"' EXIT
cp "$here"/* "$room"
cd "$room"
for number in 1 2 3 4; do
    printf '%032d' "$number" > "seed$number"
done
"$bfv" batch commands > lines.txt
diff expected_lines.txt lines.txt
diff expected_sums.txt sums.txt
cat sums.txt
