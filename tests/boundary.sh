#!/usr/bin/env bash
# What programs link, libpasoreum.a, held against the model of the scope and the crate's own source; then under valgrind, and with a small stack.
# usage: tests/boundary.sh ORACLE SOURCES [COUNT]
# ORACLE is the folder with the oracle's build.sh, SOURCES the folder with the crate's source files, COUNT how many messages, 1,000,000 if not given.
# PASOREUM_LIB_DIR names the folder of another libpasoreum.a.
set -eu
oracle=$(cd "${1:?the oracle, a folder with build.sh}" && pwd)
sources=$(cd "${2:?the folder of the crate source files}" && pwd)
count=${3:-1000000}
. "$(dirname "$0")/../bench/archive.sh"
build_archive
build_crate "$oracle" "$sources"

mkdir "$work/driver"
cp "$here"/tests/boundary/*.rs "$oracle/model.rs" "$oracle/cases.rs" "$oracle/crate_side.rs" "$work/driver"
rustc $release --edition 2021 --crate-name compare -L "$work/crate" --extern midi_msg="$work/crate/libmidi_msg.rlib" \
    --extern bstr="$work/crate/libbstr.rlib" -L "$lib" "$work/driver/compare.rs" -o "$work/compare"

failed=0
"$work/compare" --self-test || failed=1
"$work/compare" "$count" || failed=1
if command -v valgrind > /dev/null; then
    few=$((count / 500 > 200 ? count / 500 : 200))
    echo "under valgrind, memory lent without guards:"
    valgrind --quiet --error-exitcode=1 "$work/compare" --bare "$few" || failed=1
else
    echo "no valgrind"
fi
bash "$here/bench/stack/run.sh" || failed=1
exit "$failed"
