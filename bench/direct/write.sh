#!/usr/bin/env bash
# bench/direct/write.sh ORACLE SOURCES: times writer::write, which takes messages and no numbers, and the crate's writer, in one run.
# ORACLE is the folder with the oracle's build.sh, SOURCES the folder with the crate's source files.
set -eu
oracle=$(cd "${1:?the oracle, a folder with build.sh}" && pwd)
sources=$(cd "${2:?the folder of the crate source files}" && pwd)
. "$(dirname "$0")/../archive.sh"
. "$(dirname "$0")/archive.sh"
build_crate "$oracle" "$sources"
add_timed
timed writing util messages writer
rustc $release --edition 2024 --crate-name timing_write -L "$work/crate" --extern midi_msg="$work/crate/libmidi_msg.rlib" \
    --extern bstr="$work/crate/libbstr.rlib" "$here/bench/direct/write.rs" -o "$work/write" -L "$work" -l static=timed
"$work/write"
