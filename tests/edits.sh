#!/usr/bin/env bash
# tests/edits.sh [CRATE..]: tries the edits of tests/edits/CRATE, which the gate does not try: the prover has to refuse each. All crates that have some without a name.
# It ends with status 1 where one is not refused. Where a law that stands in specs/ itself falls, as at messages all_call_at_126, rt speaks of a bad edit.
set -eu
here=$(cd "$(dirname "$0")/.." && pwd)
cd "$here"
[ $# -gt 0 ] || set -- $(ls tests/edits)
work=$(mktemp -d)
trap 'rm -rf "$work"' EXIT
tar -c --exclude=out --exclude=must-fail crates crates.txt $(ls HANDLES 2> /dev/null) | tar -x -C "$work"
status=0
for crate in "$@"; do
    (cd "crates/$crate" && rt check) > "$work/said" 2>&1 || { echo "$crate: $(tail -n 1 "$work/said")"; status=1; continue; }
    cp -r "tests/edits/$crate" "$work/crates/$crate/must-fail"
    (cd "$work" && rt must-fail "$crate") > "$work/said" 2>&1 || true
    sed -i 's|BAD EDIT: the prover cannot read .*: \(.* which was not admitted, .* not checked:\)|refused by a law of specs/: \1|' "$work/said"
    grep "must-fail $crate/" "$work/said" || { cat "$work/said"; status=1; }
    ! grep -q "NOT REFUSED\|NOT TRIED\|BAD EDIT" "$work/said" || status=1
    rm -rf "$work"/crates/*/out "$work/crates/$crate/must-fail"
done
exit $status
