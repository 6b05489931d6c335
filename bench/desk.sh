#!/usr/bin/env bash
# bench/desk.sh: times `desk list` of a capture of 40,000,000 bytes into a file against examples/capture.c, and counts its calls of write(). The desk is
# crates/desk/out/desk. PASOREUM_LIB_DIR names the folder of another libpasoreum.a.
set -eu
. "$(dirname "$0")/archive.sh"
. "$here/tests/count_writes.sh"
export PYTHONDONTWRITEBYTECODE=1
desk=$here/crates/desk/out/desk
[ -x "$desk" ] || { echo "bench/desk.sh: no crates/desk/out/desk: run rt run in crates/desk first"; exit 1; }
build_archive
gcc -std=c99 -O2 -Wall -Wextra -I "$here/include" "$here/examples/capture.c" "$lib/libpasoreum.a" -o "$work/capture"
python3 "$here/tests/make_large.py" "$work/large.syx" > "$work/places"

cat <<'T'
The desk: milliseconds of processor time, user and system, for the list of a capture of 40,000,000 bytes into a file, the least of nine runs taken in turns.
desk list                  frames         C                here   ratio           goal
T
python3 - "$work" "$desk" <<'P'
import os, sys

work, desk = sys.argv[1:3]
RUNS, GOAL = 9, 1.5


def milliseconds(command, out):
    """The processor time of a command whose answers go to a new file."""
    child = os.fork()
    if child == 0:
        os.dup2(os.open(out, os.O_WRONLY | os.O_CREAT | os.O_TRUNC, 0o644), 1)
        os.execv(command[0], command)
    _, status, usage = os.wait4(child, 0)
    if status:
        sys.exit("%s ended with %d" % (command[0], status))
    return 1000 * (usage.ru_utime + usage.ru_stime)


def places(path):
    """The offset and the length of each frame that was listed."""
    with open(path, encoding="utf-8", errors="replace") as lines:
        return [line.split(" ", 2)[:2] for line in lines][:-1]


stream = work + "/large.syx"
times = [(milliseconds([work + "/capture", "bank", stream], work + "/by_c"), milliseconds([desk, "list", stream], work + "/by_desk")) for _ in range(RUNS)]
c, here = (min(column) for column in zip(*times))
listed = places(work + "/by_desk")
if listed != places(work + "/by_c") or not listed:
    sys.exit("the two lists differ")
print("%-26s %6d %9.1f %19.1f %7.2f %14.2f  %s" % ("40,000,000 bytes", len(listed), c, here, here / c, GOAL, "met" if here / c < GOAL + 0.005 else "missed"))
P

read -r calls bytes < <(count_writes "$work" "$work/counted" "$desk" list "$work/large.syx")
if [ "${calls:-0}" -eq 0 ]; then
    echo "calls of write()           not counted: the desk is linked statically"
else
    cat <<'T'

The calls of write() for that list, and the bytes of output for each call; the goal is 32,768 or more.
desk list                   bytes     calls       bytes for a call           goal
T
    awk -v c="$calls" -v b="$bytes" 'BEGIN { each = b / c; printf "%-24s %8d %9d %22d %14d  %s\n", "calls of write()", b, c, each, 32768, (c <= int(b / 32768) + 1) ? "met" : "missed" }'
fi
