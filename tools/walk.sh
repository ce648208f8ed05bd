#!/usr/bin/env bash
# Runs the walk from a seed to values in README.md on a built program, as a newcomer would paste it, and compares what it
# prints with what README says. The program may be named; it is the one of this repository where it isn't.
set -eu
top=$(cd "$(dirname "$0")/.." && pwd)
bfv=$(realpath "${1:-$top/crates/bfv/out/bfv}")
room=$(mktemp -d)
trap 'rm -r "$room"' EXIT

# The indented lines of README between two of its sentences.
lines_between() {
    sed -n "/$1/,/$2/p" "$top/README.md" | sed -n 's/^    //p'
}

lines_between '^The program is then' '^prints the values again' | grep -v '^bfv=' > "$room/walk"
lines_between '^Now a weighted sum' '^prints$' >> "$room/walk"
printf '1 2 3 4 5 6 7 8\n9 10 11 12 13 14 15 16\n' > "$room/expected"
lines_between '^prints$' '^The first line is the noise bound' >> "$room/expected"
cd "$room"
export bfv
bash -eu walk > printed
diff expected printed
echo 'walk: ok, the commands in README print what it says'
