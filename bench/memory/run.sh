#!/usr/bin/env bash
# Shows how much memory runs of the program `bfv` take at `s8192`: of a script of one step, and of one of a thousand steps
# in which two registers are live at once. The memory of a run is the greatest that its whole process held at one time, as
# the system tells it.
# Usage: bench/memory/run.sh [PROGRAM]. It needs python3 and a built `bfv`, which is that of this repository or else PROGRAM.
set -eu
repository=$(realpath "$(dirname "$0")/../..")
bfv=$(realpath -e "${1:-$repository/crates/bfv/out/bfv}")
folder=$(mktemp -d)
trap 'rm -rf "$folder"' EXIT
cd "$folder"

head -c 32 /dev/zero > seed
echo 1 > values
"$bfv" secret s8192 seed secret
"$bfv" public secret seed public
"$bfv" encrypt public seed values cipher

python3 - "$bfv" <<'PYTHON'
import os
import sys


def script(steps):
    """A script that adds its input once more in each step."""
    sums = [f"r{i + 1} = add r{i} r0" for i in range(steps)]
    return "\n".join(["set s8192", "cipher r0", *sums, f"output r{steps}", ""])


def peak(steps):
    """The greatest memory in KiB of a run of so many steps."""
    with open("script", "w", encoding="utf-8") as it:
        it.write(script(steps))
    child = os.posix_spawn(sys.argv[1], [sys.argv[1], "run", "script", "sum", "r0=cipher"], os.environ)
    _, status, used = os.wait4(child, 0)
    if status != 0:
        sys.exit(f"the run of {steps} steps ended with {os.waitstatus_to_exitcode(status)}")
    return used.ru_maxrss


for steps in (1, 1000):
    print(f"a run of {steps} steps held {peak(steps)} KiB")
PYTHON
