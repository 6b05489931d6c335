#!/usr/bin/env bash
# bench/run.sh ORACLE SOURCES: times the functions of include/pasoreum.h, as programs link them, and prints one table: writing against the crate,
# reading and the walk against plain C; then that of bench/desk.sh, `desk list` against examples/capture.c. ORACLE is the folder with the oracle's
# build.sh, SOURCES the folder with the crate's source files. PASOREUM_LIB_DIR names the folder of another libpasoreum.a.
set -eu
oracle=$(cd "${1:?the oracle, a folder with build.sh}" && pwd)
sources=$(cd "${2:?the folder of the crate source files}" && pwd)
. "$(dirname "$0")/archive.sh"
build_archive
build_crate "$oracle" "$sources"
add_timed
rustc $release --edition 2024 --crate-name timing_write -L "$work/crate" --extern midi_msg="$work/crate/libmidi_msg.rlib" \
    --extern bstr="$work/crate/libbstr.rlib" "$here/bench/write.rs" -o "$work/write" -L "$lib" -l static=pasoreum
gcc -std=gnu11 -O3 -Wall -Wextra -I "$here/include" "$here/bench/read.c" "$lib/libpasoreum.a" -o "$work/read"
gcc -std=gnu11 -O2 -Wall -Wextra -I "$here/include" "$here/bench/walk.c" "$lib/libpasoreum.a" -o "$work/walk"

# middle PROGRAM ROWS FROM TO: of five runs the one whose ratio, in the columns FROM to TO, is the middle one, row by row. A run may fall into a busy moment
# of the machine, and how well a processor learns the branches of a stream differs from run to run.
middle() {
    for run in 1 2 3 4 5; do
        "$1" > "$work/run.$run" || { cat "$work/run.$run"; exit 1; }
    done
    for row in $(seq "$2"); do
        for run in 1 2 3 4 5; do sed -n "${row}p" "$work/run.$run"; done | sort -k "1.$3,1.$4n" | sed -n 3p
    done
}

cat <<'T'
Buffers are kept and reused; none is cleared before a call. A goal is met where the ratio, in two decimals, is at most the goal. Of five runs each row is
of the run with the middle ratio.
Writing and reading: nanoseconds a call, the least of fifteen rounds taken in turns.
  made    the crate writes a message that was made before
  making  the crate makes the message of the same numbers, text and entries and writes it, which is what pasoreum_write does; the middle is by it

                                    crate     crate              ratio   ratio
pasoreum_write              bytes    made    making      here     made  making   goal  made, making
T
middle "$work/write" 8 73 80
cat <<'T'

pasoreum_read               bytes         C                here   ratio           goal
T
middle "$work/read" 8 65 72
cat <<'T'

The walk: nanoseconds a byte of 65,535, the least of eleven. Last, the time of 65,535 bytes over that of 6,553.
pasoreum_walk              frames         C                here   ratio           goal           length
T
middle "$work/walk" 10 65 72

echo
if [ -x "$here/crates/desk/out/desk" ]; then
    PASOREUM_LIB_DIR=$lib bash "$here/bench/desk.sh"
else
    echo "desk list: not timed, no crates/desk/out/desk (rt run in crates/desk)"
fi
