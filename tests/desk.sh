#!/usr/bin/env bash
# What the gate cannot hold of the desk: standard output and standard error apart, pipes, a full disk, a terminal, a large file, names of files, the
# manual page, the guide's commands.
# usage: tests/desk.sh    (after rt run in crates/desk; needs python3 and gcc; prints one line for each test, and how many failed)
cd "$(dirname "$0")/.." || exit 1
export PYTHONDONTWRITEBYTECODE=1
root=$PWD
desk=$root/crates/desk/out/desk
[ -x "$desk" ] || { echo "tests/desk.sh: no crates/desk/out/desk: run rt run in crates/desk first"; exit 1; }
. "$root/tests/count_writes.sh"
room=$(mktemp -d) || exit 1
trap 'rm -rf "$room"' EXIT
cp "$root"/crates/desk_runs/data/* "$room/"
cd "$room" || exit 1
failed=0
unwritable="standard output: cannot be written (is the disk full?)"

verdict() { # WORDS STATUS
    if [ "$2" -eq 0 ]; then echo "ok: $1"; else echo "FAILED: $1"; failed=$((failed + 1)); fi
}
# run WORD..: the desk with standard input as it is, its streams in the files out and err
run() { "$desk" "$@" >out 2>err; }
# the file err, or out, has these lines, each ended, and no byte more; without a line: it is empty
err_is() { if [ $# -eq 0 ]; then [ ! -s err ]; else printf '%s\n' "$@" | cmp -s - err; fi; }
out_is() { if [ $# -eq 0 ]; then [ ! -s out ]; else printf '%s\n' "$@" | cmp -s - out; fi; }

# --- a full disk: a write that fails leaves no file; the limit on file sizes stands for the disk
said=$( (trap '' XFSZ; ulimit -f 0; "$desk" tune full.syx 5 full <home.txt) 2>&1)
[ "$said" = "full.syx: could not be written (is the disk full?), and is not left" ] && [ ! -e full.syx ]
verdict "tune on a full disk leaves nothing" $?
said=$( (trap '' XFSZ; ulimit -f 0; "$desk" extract sample.syx 675 full.mid) 2>&1)
[ "$said" = "sample.syx: could not be written out; nothing is left" ] && [ ! -e full.mid ]
verdict "extract on a full disk leaves nothing" $?

# --- standard output that cannot be written: one line on standard error, and no byte more
untold=""
tell() { err_is "$unwritable" || untold="$untold [$1]"; }
to_full() { "$desk" "$@" >/dev/full 2>err; tell "$* > /dev/full"; }
to_closed() { "$desk" "$@" 2>err >&-; tell "$* >&-"; }
to_limited() { (trap '' XFSZ; ulimit -f 0; exec "$desk" "$@" 2>&1 >limited.txt) | cat >err; tell "$* > limited"; }
for how in to_full to_closed to_limited; do
    $how list sample.syx
    $how list --all sample.syx
    $how list cut.syx
    $how list sample.syx nothere.syx
    $how show sample.syx 209
    $how tune - 5 "home scale" <home.txt
    $how scale - 0 5 "quarter comma" <meantone.txt
    $how extract sample.syx 209 -
    $how extract sample.syx 675 -
    $how --help
    $how --version
done
[ -z "$untold" ]
verdict "a standard output that is full, closed or limited is told in one line:${untold:- all}" $?
cmp -s sample.syx "$root/crates/desk_runs/data/sample.syx" && cmp -s cut.syx "$root/crates/desk_runs/data/cut.syx"
verdict "no input is altered where standard output is closed" $?
"$desk" tune closed.syx 5 "home scale" <home.txt 2>err >&-
run tune closed_good.syx 5 "home scale" <home.txt
[ ! -e closed.syx ] || cmp -s closed.syx closed_good.syx
verdict "tune with a closed standard output leaves a whole file or none" $?

# --- nothing on standard error means success
noise=""
quiet() { run "$@" || true; err_is || noise="$noise [$*]"; }
quiet list sample.syx; quiet list bank sample.syx; quiet list wav sample.syx; quiet list --all sample.syx; quiet list --all wav sample.syx
quiet list sample.syx more.syx long.syx; quiet list empty.syx; quiet list - <sample.syx
quiet show sample.syx 209; quiet show wav sample.syx 1266; quiet show - 209 <sample.syx
quiet extract sample.syx 209 quiet_frame.syx; quiet extract bank sample.syx 675 quiet.mid; quiet extract sample.syx 675 -
quiet tune quiet_tune.syx 5 "home scale" <home.txt; quiet tune - 5 "home scale" <home.txt
quiet scale quiet_scale.syx 0 5 "quarter comma" <meantone.txt; quiet scale - 0 5 "quarter comma" <meantone.txt
quiet --help; quiet -h; quiet help; quiet --version; quiet list --help; quiet tune -h
[ -z "$noise" ]
verdict "nothing on standard error where a command succeeds:${noise:- all}" $?
run list nothere.syx
err_is "nothere.syx: there is no such file" && out_is
verdict "an error line on standard error, and nothing on standard output" $?

# --- help, version, and words that are no command
run --help && err_is && sed -n '/^\.nf$/,/^\.fi$/{/^\./d;s/\\-/-/g;p;/^\.fi$/q;}' "$root/docs/desk.1" >manual.txt && [ -s manual.txt ] && cmp -s out manual.txt
verdict "--help on standard output, as docs/desk.1 has it" $?
differing=""
for words in -h help "list --help" "list -h" "show --help" "extract --help" "tune --help" "scale -h"; do
    run $words </dev/null
    { err_is && cmp -s out manual.txt; } || differing="$differing [$words]"
done
[ -z "$differing" ]
verdict "-h, help and COMMAND --help print the same:${differing:- all}" $?
run --version
err_is && out_is "desk 0.1.0"
verdict "--version" $?
run; err_is "desk: no command; desk --help lists them" && out_is
verdict "no words" $?
run play sample.syx; err_is "play: is no command; desk --help lists them" && out_is
verdict "an unknown command" $?
run list; err_is "list: wants [--all] [KIND] FILE..; see desk --help" && out_is &&
    { run show sample.syx; err_is "show: wants [KIND] FILE OFFSET; see desk --help"; } &&
    { run extract sample.syx 0; err_is "extract: wants [KIND] FILE OFFSET OUT; see desk --help"; } &&
    { run tune bad.syx 5 </dev/null; err_is "tune: wants OUT PROGRAM NAME; see desk --help"; } &&
    { run scale bad.syx 5 bad </dev/null; err_is "scale: wants OUT BANK PROGRAM NAME; see desk --help"; }
verdict "a wrong number of words" $?
run show cello sample.syx 0; err_is "cello: is no kind of sound file: bank or wav" && out_is
verdict "a kind that is none" $?
cp sample.syx bank; run list bank; err_is && [ "$(tail -1 out)" = "19 frames" ]
verdict "a file called bank" $?

# --- what may not be read or made
run list .; err_is ".: is a directory, not a file"
verdict "a directory for a file" $?
run extract sample.syx 209 .; err_is ".: is there already, and is left as it is"
verdict "a directory for an output file" $?
: >locked.syx && chmod 000 locked.syx
if [ "$(id -u)" = 0 ]; then
    said=$(cp "$desk" "$room/own_desk" && chmod 755 "$room" "$room/own_desk" && setpriv --reuid=65534 --regid=65534 --clear-groups "$room/own_desk" list locked.syx 2>&1)
else
    said=$("$desk" list locked.syx 2>&1)
fi
[ "$said" = "locked.syx: may not be read" ]
verdict "a file that may not be read" $?

# --- a wrong sum: shown and marked, never written
run show sample.syx 830
err_is "sample.syx: the message at offset 830 has a wrong sum" && [ "$(sed -n 1p out)" = "frame: 136 bytes" ] &&
    [ "$(sed -n 2p out)" = "sum: wrong, found 23, due 22; shown as if it were right" ] && [ "$("$desk" show sample.syx 972 | tail -n +2)" = "$(tail -n +3 out)" ]
verdict "show of a message with a wrong sum, every other line as that of the good one" $?
run extract sample.syx 830 damaged.syx
[ "$(wc -l <err)" -eq 1 ] && grep -q '^sample.syx: ' err && out_is && [ ! -e damaged.syx ]
verdict "extract does not write a message with a wrong sum" $?
run show sample.syx 1213
err_is "sample.syx: at offset 1213: damaged: a field has a value or a length that it cannot have" && out_is
verdict "show of a damaged message: one line on standard error" $?

# --- answers and error lines in one pipe keep their order
printf '%s\n' "0 6 06 01 identity request" '6 19 07 01 file header "SONG" of type MIDI, 300 bytes, from device 0' "25 136 07 02 file packet 0, 111 bytes" \
    "cut.syx: the file ends inside a message that begins at offset 161" "3 frames" >order.txt
"$desk" list cut.syx 2>&1 | cmp -s - order.txt
verdict "the order of answers and error lines in one pipe" $?
"$desk" list sample.syx nothere.syx cut.syx 2>&1 | grep -n -x 'sample.syx:\|19 frames\|nothere.syx: there is no such file\|cut.syx:\|cut.syx: the file ends .*\|3 frames\|2 files:\|22 frames' |
    cut -d: -f2- >out
out_is sample.syx: "19 frames" "nothere.syx: there is no such file" cut.syx: "cut.syx: the file ends inside a message that begins at offset 161" \
    "3 frames" "2 files:" "22 frames"
verdict "the order with several files, one of which is not there" $?

# --- several files
{ echo sample.syx:; "$desk" list sample.syx; echo more.syx:; "$desk" list more.syx; echo 2 files:; echo 43 frames; } >several.txt
run list sample.syx more.syx; err_is && cmp -s out several.txt
verdict "several files, summed up" $?
{ echo sample.syx:; "$desk" list --all wav sample.syx; echo more.syx:; "$desk" list --all wav more.syx; echo 2 files:; echo 7 stretches that are no frame; echo 42 frames; } >several.txt
run list --all wav sample.syx more.syx; err_is && cmp -s out several.txt
verdict "several files, with --all and a kind" $?
run list --all unended.syx
err_is && out_is "0 ? -- longer than any frame; its end was not looked for" "70002 6 06 01 identity request" "1 stretch that is no frame" "1 frames"
verdict "a stretch without a length, and one stretch" $?

# --- standard input and output for a file
cat sample.syx | run list -; err_is && [ "$(cat out)" = "$("$desk" list sample.syx)" ]
verdict "list of a pipe" $?
cat sample.syx | run list bank /dev/stdin; err_is && [ "$(cat out)" = "$("$desk" list sample.syx)" ]
verdict "list of a pipe by its path" $?
dd if=sample.syx bs=7 status=none | run list --all -; err_is && [ "$(cat out)" = "$("$desk" list --all sample.syx)" ]
verdict "list of a pipe that gives a few bytes at a time" $?
cat sample.syx | run show - 209; err_is && [ "$(cat out)" = "$("$desk" show sample.syx 209)" ]
verdict "show from a pipe" $?
cat sample.syx | run show wav - 1266; err_is && [ "$(cat out)" = "$("$desk" show wav sample.syx 1266)" ]
verdict "show from a pipe, with a kind" $?
tail -c +210 sample.syx | head -c 408 >frame_209
"$desk" extract sample.syx 675 song.mid >out 2>err
"$desk" extract dump.syx 0 requests.syx >out 2>err
cat sample.syx | run extract - 209 piped.syx; err_is && out_is "piped.syx: 408 bytes written" && cmp -s piped.syx frame_209
verdict "extract of a frame from a pipe" $?
cat sample.syx | run extract - 675 piped.mid; err_is && out_is "piped.mid: 300 bytes written" && cmp -s piped.mid song.mid
verdict "extract of a file dump from a pipe" $?
dd if=dump.syx bs=1000 status=none | run extract - 0 piped_requests.syx; err_is && [ "$(wc -c <requests.syx)" -eq 60000 ] && cmp -s piped_requests.syx requests.syx
verdict "extract of a long file dump from a pipe" $?
run extract sample.syx 209 -; err_is && cmp -s out frame_209 && cat sample.syx | run extract - 675 - && err_is && cmp -s out song.mid
verdict "extract to standard output: the bytes and nothing else" $?
run extract gap.syx 0 - </dev/null; err_is "gap.syx: packet 1 of the file dump is missing; nothing is left" || grep -q '^gap.syx: packet 1 of the file dump is missing' err
verdict "extract to standard output: a gap is told" $?
run tune - 5 "home scale" <home.txt; err_is && cmp -s out frame_209
verdict "tune to standard output" $?
run tune tuned.syx 5 "home scale" <home.txt; err_is && out_is "tuned.syx: 408 bytes written, 127 keys set, 1 in equal temperament" && cmp -s tuned.syx frame_209
verdict "tune to a file, and how many keys are set" $?
run scale scaled.syx 0 5 "quarter comma" <meantone.txt; err_is && out_is "scaled.syx: 37 bytes written, 12 notes set" &&
    run scale - 0 5 "quarter comma" <meantone.txt && err_is && cmp -s out scaled.syx
verdict "scale to standard output" $?
"$desk" tune - 5 "home scale" <home.txt | run show - 0; err_is && [ "$(cat out)" = "$("$desk" show sample.syx 209)" ]
verdict "tune into show, through a pipe" $?
cat cut.syx | run list -; err_is "standard input: the file ends inside a message that begins at offset 161"
verdict "standard input by its name in an error line" $?
cp sample.syx ./-; run list ./- </dev/null; err_is && [ "$(tail -1 out)" = "19 frames" ]
verdict "a file called -" $?
run list - <.; [ "$(wc -l <err)" -eq 1 ] && grep -q '^standard input: ' err
verdict "a directory as standard input" $?
cat nothere.txt 2>cat.err | run tune lost.syx 5 "my scale"; err_is "standard input: has no line of a tuning; nothing is written" && out_is && [ ! -e lost.syx ]
verdict "tune of an input that did not come" $?
printf '# only this\n\n! and this\n' | run scale lost.syx 0 5 "my scale"; err_is "standard input: has no value of a scale; nothing is written" && out_is && [ ! -e lost.syx ]
verdict "scale of comments only" $?

# --- text that players have gives the same bytes as plain lines
printf '60 0\n61 -24.5\n63 10.5\n127 -\n' | "$desk" tune plain.syx 7 plain >out 2>err
differing=""
like() { # WORDS TEXT, as printf has it
    printf "$2" | run tune - 7 plain
    { err_is && cmp -s out plain.syx; } || differing="$differing [$1]"
}
like "names and commas" 'C4 0\nC#4 -24,5\neb4 +10.50000000\nG9 -\n'
like "CR" '60 0\r61 -24.5\r63 10.5\r127 -'
like "CR LF" '60 0\r\n\r\n61 -24.5\r\n63 10.5\r\n127 -\r\n'
like "byte order mark and minus sign" '\xef\xbb\xbf60 0\n61 \xe2\x88\x9224.5\n63 10.5\n127 -\n'
like "comments" '! mine\n60 0 # none\n61\t-24.5\n  63 10.5 !flat\n127 - #\n#\n'
like "many decimals" '60 .0\n61 -24.49999999999999999999\n63 10.5\n127 -\n'
[ -z "$differing" ]
verdict "key names, commas, line ends, marks and comments:${differing:- all}" $?

# --- names of files
long=$(printf './%.0s' $(seq 2041))/./sample.syx
run list "$long"; [ ${#long} -eq 4095 ] && err_is && [ "$(tail -1 out)" = "19 frames" ]
verdict "a path of 4,095 bytes" $?
run list "$(printf '%5000s' | tr ' ' a)"; err_is "desk: word 2 is longer than 4,095 bytes" && out_is
verdict "a path of 5,000 bytes" $?
run tune new.syx 5 "$(printf '%4096s' | tr ' ' a)" <home.txt; err_is "desk: word 4 is longer than 4,095 bytes" && out_is && [ ! -e new.syx ]
verdict "a name of 4,096 bytes" $?
run list $(yes "$(printf '%100s' | tr ' ' a)" | head -1200); err_is "desk: too many words, more than 65,536 bytes" && out_is
verdict "too many words" $?
odd=$'a\e[31m\x7f\t.syx'
cp cut.syx "$odd"; run list "$odd" "no$odd"
err_is 'a\x1B[31m\x7F\x09.syx: the file ends inside a message that begins at offset 161' 'noa\x1B[31m\x7F\x09.syx: there is no such file' &&
    [ "$(sed -n 1p out)" = 'a\x1B[31m\x7F\x09.syx:' ]
verdict "control characters in the name of a file" $?
printf '60 0\n' | run tune "made$odd" 5 odd; err_is && out_is 'madea\x1B[31m\x7F\x09.syx: 408 bytes written, 1 key set, 127 in equal temperament' && [ -e "made$odd" ]
verdict "control characters in the name of an output file" $?
high=$'gr\xc3\xb6\xc3\x9fe\xc2\x9b.syx'
run list "$high"; [ "$(wc -l <err)" -eq 1 ] && LC_ALL=C grep -q $'^gr\xc3\xb6\xc3\x9fe\xc2\\\\x9B\\.syx: ' err
verdict "letters of UTF-8 in a name are kept, its control characters are not" $?

# --- another sort of file
printf 'MThd\0\0\0\6\0\0\0\1\0\140MTrk\0\0\0\4\0\377\57\0' >song2.mid
printf 'RIFF\44\0\0\0WAVEfmt ' >x.wav
printf '! q.scl\n!\nquarter comma\n 12\n' >x.scl
printf 'F0 7E 7F 06 01 F7\r\n\tfirst\f\n' >x.txt
printf '\xef\xbb\xbfF0 7E 7F 06 01 F7\n' >marked.txt
unhinted=""
hint() { run list "$1"; { err_is "$1: $2" && out_is "0 frames"; } || unhinted="$unhinted [$1]"; }
hint song2.mid "is a Standard MIDI File; the desk reads the bytes as they go over the cable"
hint x.wav "is a sound file (RIFF), not a capture"
hint x.scl "is a Scala file, not a capture"
hint x.txt "is text, not a capture; the bytes themselves are wanted"
hint marked.txt "is text, not a capture; the bytes themselves are wanted"
[ -z "$unhinted" ]
verdict "another sort of file is named:${unhinted:- all}" $?
cat x.txt | run list -; err_is "standard input: is text, not a capture; the bytes themselves are wanted"
verdict "text on standard input is named" $?
hinted=""
{ printf 'MThd'; cat sample.syx; } >frames.mid; { cat x.txt; cat sample.syx; } >frames.txt; printf 'text\0' >zero.bin; printf '\220\74\100' >notes.syx
for file in frames.mid frames.txt zero.bin notes.syx empty.syx; do run list $file; err_is || hinted="$hinted [$file]"; done
[ -z "$hinted" ]
verdict "no hint where there is a frame, no text, or nothing:${hinted:- all}" $?

# --- a large file: frames of many lengths at random places, each listed once, none lost
python3 "$root/tests/make_large.py" large.syx >expected.txt
run list large.syx
cut -d' ' -f1,2 out | sed '$d' | cmp -s - expected.txt && [ "$(tail -1 out)" = "$(wc -l <expected.txt) frames" ]
verdict "40 million bytes: every frame listed once" $?
err_is
verdict "no progress where standard error is a file" $?
mv out large.txt
python3 "$root/tests/desk_streams.py" terminal "$desk" list large.syx >out 2>err
err_is && [ -s out ] && ! grep -q -v -x '[0-9]* million bytes read' out
verdict "progress where standard error is a terminal" $?
python3 "$root/tests/desk_streams.py" terminal "$desk" list sample.syx >out 2>err
err_is && out_is
verdict "no progress in a small file" $?
"$desk" list --all large.syx 2>err | grep -v -- ' -- ' | grep -v ' damaged: ' | cut -d' ' -f1,2 | grep -v stretches | sed '$d' | cmp -s - expected.txt && err_is
verdict "list --all lists the same frames" $?
cat large.syx | run list -; err_is && cmp -s out large.txt
verdict "40 million bytes through a pipe" $?
last=$(tail -1 expected.txt | cut -d' ' -f1)
cat large.syx | run show - "$last"; err_is && [ -s out ] && [ "$(cat out)" = "$("$desk" show large.syx "$last")" ]
verdict "show at the end of 40 million bytes, through a pipe" $?
read -r calls bytes < <(count_writes "$room" counted.txt "$desk" list large.syx)
if [ "${calls:-0}" -eq 0 ] && command -v strace >/dev/null; then
    strace -f -e trace=write,writev -o trace.txt "$desk" list large.syx >counted.txt
    calls=$(grep -c 'writev*(1,' trace.txt) bytes=$(wc -c <counted.txt)
fi
cmp -s counted.txt large.txt && [ "${calls:-0}" -gt 0 ] && [ "$calls" -le $((bytes / 32768 + 1)) ]
verdict "at most one write for each 32 KB of answers: $calls for $bytes bytes" $?

# --- an output that fails in the middle of a large list
python3 "$root/tests/desk_streams.py" taken "$desk" large.syx part.txt 200000 >out 2>err
taken=$(sed -n 1p out)
cmp -s -n 200000 part.txt large.txt && [ "$(wc -c <part.txt)" -le 200000 ] && [ "$taken" -lt 8000000 ]
verdict "a list whose output fails ends soon, after $taken of 40 million bytes" $?
err_is && [ "$(tail -n +2 out)" = "$unwritable" ] && [ "$(wc -l <out)" -eq 2 ]
verdict "an output that fails in the middle is told once" $?
timeout 60 python3 "$root/tests/desk_streams.py" gone "$desk" large.syx >out 2>err
err_is && out_is "$unwritable"
verdict "a pipe that is closed is told once" $?
[ "$(timeout 60 "$desk" list large.syx 2>err | head -1)" = "$(head -1 large.txt)" ]
verdict "a list into head ends" $?

# --- the manual page: no warning of groff, if it is there
if command -v groff >/dev/null; then
    groff -man -Tutf8 -ww "$root/docs/desk.1" >page.txt 2>err && err_is && [ -s page.txt ]
    verdict "docs/desk.1 is set without a warning" $?
fi

# --- the guide: each command as written, with the output that follows it
mkdir guide
python3 "$root/tests/run_guide.py" "$root" guide
verdict "every command of docs/GUIDE.md" $?

echo "$failed failed"
[ "$failed" -eq 0 ]
