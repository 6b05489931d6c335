# Sourced by tests/desk.sh and bench/desk.sh. count_writes FOLDER OUT PROGRAM ..: runs a program with its standard output to OUT, and prints how many
# calls of write() that took and how many bytes they wrote; `0 0` where they cannot be counted, the program being linked statically.
count_writes() {
    local folder=$1 out=$2
    shift 2
    [ -e "$folder/count_writes.so" ] ||
        gcc -shared -fPIC -O2 -Wall -Wextra "$(dirname "${BASH_SOURCE[0]}")/count_writes.c" -o "$folder/count_writes.so" -ldl || return 1
    COUNT_WRITES=$folder/counts LD_PRELOAD=$folder/count_writes.so "$@" >"$out" 2>"$folder/counts.err" || return 1
    od -An -v -t u8 "$folder/counts" | awk '{ print $1, $2 }'
}
