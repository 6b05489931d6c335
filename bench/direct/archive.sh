# Sourced by the scripts beside it, after ../archive.sh.

# timed SOURCE DEP..: the functions of SOURCE.rt.txt as the archive $work/libtimed.a. What is proved already is not proved again.
timed() {
    local source=$1 part proof
    shift
    mkdir -p "$work/port"
    cp -r "$here/crates" "$work/port/crates"
    mkdir -p "$work/port/crates/timed/src"
    cp "$here/bench/direct/$source.rt.txt" "$work/port/crates/timed/src/lib.rt"
    for proof in "$here/bench/direct/$source"/*.antt.txt; do
        [ -e "$proof" ] || continue
        part=$(basename "$proof" .antt.txt)
        mkdir -p "$work/port/crates/timed/proofs/${part%.*}"
        cp "$proof" "$work/port/crates/timed/proofs/${part%.*}/${part##*.}.antt"
    done
    { cat "$here/crates.txt"; echo "timed staticlib: $*"; } > "$work/port/crates.txt"
    (cd "$work/port/crates/timed" && rt lib > "$work/log" 2>&1) || { tail -20 "$work/log"; exit 1; }
    mv "$work/port/crates/timed/out/libtimed.a" "$work/libtimed.a"
}
