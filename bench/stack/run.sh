#!/usr/bin/env bash
# bench/stack/run.sh: the walk over ten streams of 65,535 bytes, with a stack of 64 KB.
set -eu
. "$(dirname "$0")/../archive.sh"
build_archive
cc -std=gnu11 -O2 -Wall -Wextra -I "$here/include" "$here/bench/stack/stack.c" "$lib/libpasoreum.a" -o "$work/stack"
(ulimit -s 64 && "$work/stack")
