# Sourced by the benchmarks and by tests/boundary.sh: `here` is the repository, `work` a folder that is removed at the end.
here=$(cd "$(dirname "${BASH_SOURCE[0]}")/.." && pwd)
work=$(mktemp -d)
trap 'rm -rf "$work"' EXIT
release="-C opt-level=3 -C debug-assertions=off -C overflow-checks=off"

# build_archive: `lib` is the folder of libpasoreum.a, the one that PASOREUM_LIB_DIR names, or else crates/pasoreum/out. There the archive is made if
# it is missing or older than a source.
build_archive() {
    lib=${PASOREUM_LIB_DIR:-$here/crates/pasoreum/out}
    [ -z "${PASOREUM_LIB_DIR:-}" ] || return 0
    local made_of=("$here/crates.txt" "$here"/crates/*/src "$here"/crates/*/specs "$here"/crates/*/proofs)
    if [ ! -e "$lib/libpasoreum.a" ] || [ -n "$(find "${made_of[@]}" -type f -newer "$lib/libpasoreum.a" -print -quit 2> "$work/log")" ]; then
        (cd "$here/crates/pasoreum" && rt lib > "$work/log" 2>&1) || { tail -20 "$work/log"; exit 1; }
    fi
}

# build_crate ORACLE SOURCES: the crate by the oracle's build.sh, in $work/crate. ORACLE is the folder of build.sh, SOURCES that of the crate's files.
build_crate() {
    mkdir -p "$work/oracle"
    cp -r "$1/build.sh" "$1/stand_ins" "$work/oracle"
    sh "$work/oracle/build.sh" "$2" "$work/crate" > "$work/log" 2>&1 || { tail -20 "$work/log"; exit 1; }
}

# add_timed: that crate with one public function more, which writes into a Vec that is kept.
add_timed() {
    cat >> "$work/crate/src/system_exclusive/mod.rs" <<'R'
pub mod timed {
    use super::*;
    pub fn write(m: &SystemExclusiveMsg, v: &mut Vec<u8>) {
        m.extend_midi(v, true);
    }
}
R
    (cd "$work/crate" && rustc $release --edition 2024 --crate-type rlib --crate-name midi_msg -A unexpected_cfgs \
        --cfg 'feature="sysex"' --extern bstr=libbstr.rlib --extern micromath=libmicromath.rlib src/lib.rs)
}
