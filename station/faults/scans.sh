# shellcheck shell=sh disable=SC2154,SC2034
# station/faults.sh reads this: no scan is overwritten, and what is there already only where --force is said.
scans=$room/scans
{ printf 'P5\n80 80\n255\n'; head -c 6400 /dev/zero; } >little.pgm
lay_scans() {
    rm -rf "$scans" kept
    mkdir "$scans" kept
    cp film.pgm "$scans/a.pgm"
    cp little.pgm "$scans/b.pgm"
    cp before "$scans/note.txt"
}
# All that lies in the folder of the scans, and where links lead, before and after.
seen() { (cd "$scans" && find . | sort && find . -type l -exec readlink {} + && find . -type f -exec sha256sum {} + | sort); }
untouched() { # WHAT WANTED TOLD WORDS..: the scans are as they were, and TOLD is said
    what=$1 wanted=$2 told=$3
    shift 3
    seen >was
    (cd "$scans" && timeout 120 "$tz" "$@") >wrote 2>said
    saw=$?
    seen >is
    if [ "$saw" -eq "$wanted" ] && grep -qF -- "$told" said && cmp -s was is; then ok=yes; else ok=no; fi
    told=''
    report "$ok" "$what" "status $saw: $(tail -n 1 said | cut -c 1-90)"
}
of_scan="would take a scan's place, which --force does not permit"
lay_scans
untouched 'a glob that two films match: the second is left' 64 'Several films want --into FOLDER. Give another name, or, where this is no scan' enhance a.pgm b.pgm
untouched 'OUT is IN' 64 "$of_scan" enhance a.pgm a.pgm
untouched 'OUT is IN: the way out' 64 'Give another name.' enhance a.pgm a.pgm
untouched 'OUT is IN, --force' 64 "$of_scan" enhance --force a.pgm a.pgm
untouched 'OUT is IN by another name, --force' 64 "$of_scan" enhance --force a.pgm ../scans/./a.pgm
untouched 'OUT is IN, a window, --force' 64 "$of_scan" window --force a.pgm a.pgm --at 0,0 --size 8x8
untouched 'OUT is there' 64 'say --force to have it replaced' enhance a.pgm note.txt
untouched 'OUT is there, a window' 64 'say --force to have it replaced' window a.pgm note.txt --at 0,0 --size 8x8
untouched 'a record is there' 64 'say --force to have it replaced' enhance a.pgm ../kept/new.pgm --record note.txt
untouched 'OUT and record are there' 64 'say --force to have them replaced' enhance a.pgm b.pgm --record note.txt
untouched 'a record in the place of IN, --force' 64 "$of_scan" enhance --force a.pgm ../kept/new.pgm --record a.pgm
if [ "$(ls kept)" = '' ]; then ok=yes; else ok=no; fi
report "$ok" 'what was refused left no film and no record' "$(ls kept)"
ln -s a.pgm "$scans/link.pgm"
ln "$scans/a.pgm" "$scans/hard.pgm"
ln -s nowhere.pgm "$scans/dangling.pgm"
ln -s b.pgm "$scans/other.pgm"
untouched 'OUT is a link to IN, --force' 64 "$of_scan" enhance --force a.pgm link.pgm
untouched 'OUT is a hard link to IN, --force' 64 "$of_scan" enhance --force a.pgm hard.pgm
untouched 'OUT is IN, which is named by a link, --force' 64 "$of_scan" enhance --force link.pgm a.pgm
untouched 'a window over a link to IN, --force' 64 "$of_scan" window --force a.pgm link.pgm --at 0,0 --size 8x8
untouched 'a record that is a link to IN, --force' 64 "$of_scan" enhance --force a.pgm ../kept/new.pgm --record link.pgm
untouched 'a record that is a hard link to IN, --force' 64 "$of_scan" enhance --force a.pgm ../kept/new.pgm --record hard.pgm
untouched 'OUT is a link to a scan that is not read' 64 'say --force to have it replaced' enhance a.pgm other.pgm
untouched 'OUT is a link to nothing' 64 'say --force to have it replaced' enhance a.pgm dangling.pgm
(cd "$scans" && "$tz" enhance --force - a.pgm <a.pgm) >wrote 2>said
saw=$?
if [ "$saw" -eq 64 ] && cmp -s film.pgm "$scans/a.pgm"; then ok=yes; else ok=no; fi
report "$ok" 'OUT is the file that standard input comes from' "status $saw: $(head -n 1 said)"
(cd "$scans" && "$tz" enhance a.pgm - >>a.pgm) 2>said
saw=$?
if [ "$saw" -eq 64 ] && cmp -s film.pgm "$scans/a.pgm"; then ok=yes; else ok=no; fi
report "$ok" 'IN is the file that standard output goes to' "status $saw: $(head -n 1 said)"

# A link in OUT's place is replaced itself, where --force is said; what it led to is as it was.
(cd "$scans" && "$tz" enhance --force a.pgm other.pgm --record dangling.pgm) >wrote 2>said
saw=$?
if [ "$saw" -eq 0 ] && [ ! -L "$scans/other.pgm" ] && whole "$scans/other.pgm" && cmp -s little.pgm "$scans/b.pgm" &&
    [ ! -L "$scans/dangling.pgm" ] && grep -q '"sha256"' "$scans/dangling.pgm" && [ ! -e "$scans/nowhere.pgm" ]; then ok=yes; else ok=no; fi
report "$ok" 'links in the place of OUT and record: replaced themselves' "status $saw"
(cd "$scans" && "$tz" enhance a.pgm /dev/stdout) >kept/out.pgm 2>said
saw=$?
if [ "$saw" -eq 0 ] && cmp -s kept/out.pgm "$scans/other.pgm" && [ -L /dev/stdout ]; then ok=yes; else ok=no; fi
report "$ok" 'OUT is /dev/stdout, a file: written as by -' "status $saw"
(cd "$scans" && "$tz" enhance a.pgm /dev/stdout 2>../said) | cmp -s - "$scans/other.pgm"
saw=$?
if [ "$saw" -eq 0 ]; then ok=yes; else ok=no; fi
report "$ok" 'OUT is /dev/stdout, a pipe' "cmp $saw"
(cd "$scans" && "$tz" enhance --force a.pgm /dev/fd/3) 3>kept/three.pgm 2>said
saw=$?
if [ "$saw" -eq 64 ] && [ -e /dev/fd ] && [ ! -s kept/three.pgm ]; then ok=yes; else ok=no; fi
report "$ok" "OUT is the system's link to an open file: left" "status $saw: $(head -n 1 said)"
# shellcheck disable=SC2016
(cd "$scans" && "$tz" enhance a.pgm "$room/scans/new.pgm" && "$tz" enhance --force a.pgm "$room/scans/new.pgm") >wrote 2>said
saw=$?
if [ "$saw" -eq 0 ] && whole "$scans/new.pgm"; then ok=yes; else ok=no; fi
report "$ok" 'rendering again with --force' "status $saw"

# ---- into a folder
lay_scans
mkdir "$scans/out"
ln -s ../b.pgm "$scans/out/a.pgm"
untouched '--into: OUT is a link to another scan of the call, --force' 64 "$of_scan" enhance --force --into out a.pgm b.pgm
untouched '--into: the same, and the way out' 64 'Give another folder.' enhance --force --into out a.pgm b.pgm
untouched '--into: OUT is a link to a scan that is not read' 64 'say --force to have it replaced' enhance --into out a.pgm
ln -s ../b.pgm "$scans/out/a.pgm.json"
untouched '--into: a record is a link to a scan of the call, --force' 64 "$of_scan" enhance --force --records --into out b.pgm a.pgm
rm "$scans/out/a.pgm.json"
ln "$scans/b.pgm" "$scans/out/a.pgm.json"
rm "$scans/out/a.pgm"
untouched '--into: a record is a hard link to a scan of the call, --force' 64 "$of_scan" enhance --force --records --into out b.pgm a.pgm
rm "$scans/out/a.pgm.json"
ln -s ../b.pgm "$scans/out/a.pgm"
(cd "$scans" && "$tz" enhance --force --into out a.pgm) >wrote 2>said
saw=$?
if [ "$saw" -eq 0 ] && whole "$scans/out/a.pgm" && [ ! -L "$scans/out/a.pgm" ] && cmp -s little.pgm "$scans/b.pgm"; then ok=yes; else ok=no; fi
report "$ok" '--into over a link, --force: the link itself is replaced' "status $saw"
untouched '--into: a rendering is there: nothing is begun' 64 'out/a.pgm' enhance --into out b.pgm a.pgm
for i in 1 2 3 4 5 6 7; do cp little.pgm "$scans/$i.pgm" && cp before "$scans/out/$i.pgm"; done
untouched '--into: eight renderings are there: five are named' 64 'and 3 more' enhance --into out 1.pgm 2.pgm 3.pgm 4.pgm 5.pgm 6.pgm 7.pgm a.pgm b.pgm
(cd "$scans" && "$tz" enhance --force --into out 1.pgm 2.pgm a.pgm) >wrote 2>said
saw=$?
if [ "$saw" -eq 0 ] && whole "$scans/out/a.pgm" && [ "$(head -c 2 "$scans/out/2.pgm")" = P5 ] && cmp -s before "$scans/out/3.pgm"; then ok=yes; else ok=no; fi
report "$ok" '--into what is there, --force: rendered again' "status $saw"

# ---- new files that a killed process left behind
rm -f out/*
(exec >out/.tzofnadir-1-0.part)
(exec >out/.tzofnadir-123456-12.part)
: >out/.tzofnadir-7-7.part
: >out/.tzofnadir-1-x.part
: >out/.tzofnadir-1-0.part.pgm
mkdir out/.tzofnadir-2-0.part
ln -s "$room/film.pgm" out/.tzofnadir-3-0.part
flock out/.tzofnadir-7-7.part sleep 3 &
child=$!
sleep 0.3
"$tz" enhance film.pgm "$out" 2>said
saw=$?
left=$(cd out && echo .tzofnadir-*)
wait "$child"
if [ "$saw" -eq 0 ] && [ "$left" = '.tzofnadir-1-0.part.pgm .tzofnadir-1-x.part .tzofnadir-2-0.part .tzofnadir-3-0.part .tzofnadir-7-7.part' ]; then ok=yes; else ok=no; fi
report "$ok" 'old new files: cleared, but for what is held or no such file' "status $saw: $left"
"$tz" enhance --force film.pgm "$out" 2>said
saw=$?
if [ "$saw" -eq 0 ] && [ ! -e out/.tzofnadir-7-7.part ] && whole film.pgm; then ok=yes; else ok=no; fi
report "$ok" 'an old new file that is held no more: cleared' "status $saw"
rm -rf out/.tzofnadir-* "$out"

# A file that comes into OUT's place while the film is rendered is left. strace holds the program before its rename.
if command -v strace >/dev/null && strace -o trace -e trace=/^rename true 2>/dev/null; then
    rm -f kept/late.pgm
    strace -f -o trace -e trace=/^rename -e 'inject=/^rename:delay_enter=3000000' "$tz" enhance film.pgm kept/late.pgm >wrote 2>said &
    child=$!
    while no_leftover kept && kill -0 "$child" 2>/dev/null; do :; done
    cp before kept/late.pgm
    wait "$child"
    saw=$?
    if [ "$saw" -eq 64 ] && cmp -s before kept/late.pgm && no_leftover kept; then ok=yes; else ok=no; fi
    report "$ok" 'a file that comes into the place meanwhile: left' "status $saw: $(head -n 1 said)"
else
    skip 'a file that comes into the place meanwhile: there is no strace here, or it may not be used'
fi
