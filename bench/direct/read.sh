#!/usr/bin/env bash
# bench/direct/read.sh: times reader::read, which answers a message and no numbers, and the plain C reader, on three messages in one run.
set -eu
. "$(dirname "$0")/../archive.sh"
. "$(dirname "$0")/archive.sh"
timed reading messages reader util
gcc -std=gnu11 -O3 -Wall -Wextra -Wno-unused-function -I "$here/include" "$here/bench/direct/read.c" "$work/libtimed.a" -o "$work/read"
"$work/read"
