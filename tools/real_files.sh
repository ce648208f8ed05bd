#!/usr/bin/env bash
# What the built program does with pipes, devices, folders, symlinks and full disks. Device nodes are made in a folder
# of its own and nowhere else touched; where the system doesn't allow that, the line says that it is skipped. The
# program may be named; it is the one of this repository where it isn't.
set -u
top=$(cd "$(dirname "$0")/.." && pwd) || exit 1
bfv=$(realpath "${1:-$top/crates/bfv/out/bfv}") || exit 1
room=$(mktemp -d) || exit 1
trap 'rm -rf "$room"' EXIT
cp "$top"/crates/bfv/data/* "$room" || exit 1
cd "$room" || exit 1
failures=0

# wants WHAT CODE LINE COMMAND..: the command ends with this code and prints this line.
wants() {
    local what=$1 code=$2 line=$3 printed status
    shift 3
    printed=$("$@")
    status=$?
    if [ "$status" -ne "$code" ] || [ "$printed" != "$line" ]; then
        echo "real_files: FAILED, $what: code $status, printed '$printed'"
        failures=$((failures + 1))
    fi
}

# holds WHAT COMMAND..: the command succeeds.
holds() {
    local what=$1
    shift
    if ! "$@"; then
        echo "real_files: FAILED, $what"
        failures=$((failures + 1))
    fi
}

# Runs the program with what is given first as the name SEED, VALUES or SCRIPT of a pipe.
with_pipe() {
    local text=$1
    shift
    mkfifo pipe
    printf '%s' "$text" > pipe &
    "$bfv" "$@"
    local status=$?
    kill $! 2> /dev/null
    wait $! 2> /dev/null
    rm -f pipe
    return $status
}

# The stored batch, whose files are compared here.
wants 'the stored batch' 0 "$(cat "$top/crates/bfv/stdout")" "$bfv" batch commands
holds 'the text of the stored cipher' cmp -s fives text
holds 'a long text that is encrypted and decrypted' cmp -s long long_again
holds 'a long text, value for value' cmp -s <(tr '\n' ' ' < digits | tr -s ' ' '\n' | awk 'NF { print $1 * 7001 % 65537 }') \
    <(tr '\n' ' ' < long | tr -s ' ' '\n' | awk 'NF')
holds 'a difference that is nothing' test -z "$(tr -d '0 \n' < zeros)"
holds 'no part is left' test -z "$(find . -name '*.part')"

# Reading.
wants 'a pipe as values' 4 'read fault: pipe' with_pipe '1 2 3' encrypt pub seed pipe o
wants 'a pipe as a script' 4 'read fault: pipe' with_pipe 'set toy16' check pipe
wants 'a pipe as a cipher' 4 'read fault: pipe' with_pipe 'BFVRNSF' decrypt first pipe o
wants 'a pipe as a seed' 0 '' with_pipe '................................' secret toy16 pipe o
printf '................................' > dots
"$bfv" secret toy16 dots wanted
holds 'a pipe and a file of one seed' cmp -s o wanted
wants 'a pipe that is a short seed' 19 'short seed: pipe 31' with_pipe '...............................' secret toy16 pipe p
wants 'a folder as values' 4 'read fault: .' "$bfv" encrypt pub seed . p
wants 'a device as a seed' 0 '' "$bfv" secret toy16 /dev/zero o
holds 'no file of a command that is refused' test ! -e p

# Writing.
wants 'OUT is a folder' 5 'write fault' "$bfv" decrypt first d .
mkfifo fifo
wants 'OUT is a pipe' 5 'write fault' "$bfv" decrypt first d fifo
holds 'the pipe is there' test -p fifo
printf 'old' > end
ln -s end link
wants 'OUT is a symlink' 0 '' "$bfv" decrypt first d link
holds 'the symlink is there' test -L link
holds 'its end is written' cmp -s end fives
ln -s nowhere dangling
wants 'OUT is a symlink to nothing' 5 'write fault' "$bfv" decrypt first d dangling
holds 'the symlink to nothing is there' test -L dangling
chmod 600 end
wants 'OUT has mode 0600' 0 '' "$bfv" decrypt first d end
holds 'the mode is kept' test "$(stat -c %a end)" = 600
mkdir blocked.part
wants 'the part is a folder' 5 'write fault' "$bfv" decrypt first d blocked
rmdir blocked.part
printf 'left' > out.part
wants 'a part that was left' 0 '' "$bfv" decrypt first d out
holds 'a file in its place' cmp -s out fives
printf 'old' > limited
wants 'a file that may not grow so long' 5 'write fault' bash -c 'trap "" XFSZ; ulimit -f 1; exec "$0" "$@"' \
    "$bfv" secret s4096 seed limited
holds 'the old file is there' test "$(cat limited)" = old
holds 'no part is left of writing' test -z "$(find . -name '*.part')"
if mknod null c 1 3 2> /dev/null && printf '' 2> /dev/null > null; then
    wants 'OUT is a device' 5 'write fault' "$bfv" decrypt first d null
    holds 'the device is there' test -c null
else
    echo 'real_files: skipped, OUT as a device: no node may be made here'
fi
if mknod full c 1 7 2> /dev/null && printf '' 2> /dev/null > full; then
    wants 'a full output' 5 '' bash -c '"$0" "$@" > full' "$bfv" check less
else
    echo 'real_files: skipped, a full output: no node may be made here'
fi
mkdir disk
if mount -t tmpfs -o size=64k none disk 2> /dev/null; then
    printf 'old' > disk/o
    wants 'a full disk' 5 'write fault' "$bfv" secret s16384 seed disk/o
    holds 'the old file on the full disk' test "$(cat disk/o)" = old
    holds 'no part on the full disk' test ! -e disk/o.part
    umount disk
else
    echo 'real_files: skipped, a full disk: none may be mounted here'
fi
if [ "$failures" -gt 0 ]; then
    exit 1
fi
echo 'real_files: ok, pipes, devices, folders, symlinks and full disks are met as they should be'
