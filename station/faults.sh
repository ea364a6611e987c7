#!/bin/sh
# station/faults.sh [PROGRAM]: tries what can go wrong around the command line program, and prints what it saw. PROGRAM is
# another build of it, one with sanitizers for instance; then the limits on memory are left out, as it may want more.
#
# In every trial OUT holds a text beforehand, and --force permits its being replaced. A trial is as expected where the exit status is the one named, OUT is as it
# was (or, after status 0, a whole film), and no file is left beside it; a kill that comes too late finds the whole film
# there. The last line counts the trials. What cannot be tried on this machine or as this user is named and not counted.
set -u
top=$(cd "$(dirname "$0")/.." && pwd -P)
case ${1:-} in
-h | --help | help)
    sed -n '2,/^set/s/^# \{0,1\}//p' "$top/station/faults.sh"
    exit 0
    ;;
esac
"$top/station/build" || exit 2

room=$(mktemp -d) || exit 2
disk=''
tidy() {
    [ -z "$disk" ] || umount "$disk"
    rm -rf "$room"
}
trap tidy EXIT
trap 'exit 1' HUP INT TERM
mkdir "$room/bin" "$room/out"
cp "$top/target/station/tzofnadir" "$top/target/station/tzofnadir.x86-64" "$room/bin/"
[ $# -eq 0 ] || cp -f "$1" "$room/bin/tzofnadir"
chmod -R a+rX "$room"
cd "$room" || exit 2
tz=$room/bin/tzofnadir out=$room/out/film.pgm
tried=0 good=0
# A shell has what it starts in the background ignore INT, and nohup has it ignore HUP; the program leaves that as it is, so
# env undoes it.
undo=''
! env --default-signal=HUP,INT,QUIT,TERM true 2>/dev/null || undo='env --default-signal=HUP,INT,QUIT,TERM'

# ---- films
cp "$top/docs/weld.pgm" film.pgm || exit 2
{ printf 'P5\n4096 4096\n4095\n'; head -c 33554432 /dev/zero; } >big.pgm
printf 'this was here before\n' >before
raster() { tail -c 393216 film.pgm; }
# The largest film behind a header of COUNT bytes, all but 17 of them spaces.
largest() { # COUNT
    printf 'P5'
    head -c $(($1 - 17)) /dev/zero | tr '\0' ' '
    printf '4096 4096\n4095\n'
    head -c 33554432 /dev/zero
}

# ---- the judge
report() { # OK WHAT SAW
    tried=$((tried + 1))
    if [ "$1" = yes ]; then
        good=$((good + 1))
        printf 'as expected      %-58s %s\n' "$2" "$3"
    else
        printf 'NOT AS EXPECTED  %-58s %s\n' "$2" "$3"
    fi
}
skip() { printf 'not tried        %s\n' "$*"; }
no_leftover() { # FOLDER
    for f in "$1"/.tzofnadir-*; do [ ! -e "$f" ] || return 1; done
}
whole() { # FILE: 512 by 384 at two bytes
    [ "$(head -c 2 "$1")" = P5 ] && [ "$(wc -c <"$1")" -eq 393232 ]
}
told='' # words that the next message has to hold; there always has to be one
judge() { # WHAT WANTED SAW
    ok=yes
    [ "$3" -eq "$2" ] || ok=no
    grep -qF -- "$told" said || ok=no
    told=''
    if [ "$3" -ne 0 ] && ! cmp -s before "$out"; then ok=no; fi
    if [ "$3" -eq 0 ] && [ "$(head -c 2 "$out")" != P5 ]; then ok=no; fi
    no_leftover out || ok=no
    report "$ok" "$1" "status $3: $(head -n 1 said | cut -c 1-90)"
}
over() { # COMMAND WORDS..: as a command that may replace what is there
    command=$1
    shift
    timeout 120 "$tz" "$command" --force "$@"
}
try() { # WHAT WANTED WORDS..
    what=$1 wanted=$2
    shift 2
    cp before "$out"
    case ${1:-} in
    enhance | window | around | direct | raw | plain) over "$@" >wrote 2>said ;;
    *) timeout 120 "$tz" "$@" >wrote 2>said ;;
    esac
    judge "$what" "$wanted" $?
}

stopped_slow() { # WHAT SIGNAL:STATUS TOLD WORDS..: stopped once the time that it takes is told, with nothing left of it
    what=$1 signal=${2%:*} status=${2#*:} sentence=$3
    shift 3
    if [ "$signal" = INT ] && [ -z "$undo" ]; then
        skip "$what: this env does not set signals back"
        return
    fi
    rm -f "$out" said
    $undo "$tz" "$@" >wrote 2>said &
    child=$!
    turns=0
    while [ "$turns" -lt 600 ] && ! grep -q 'it takes about' said 2>/dev/null && kill -0 "$child" 2>/dev/null; do
        sleep 0.1
        turns=$((turns + 1))
    done
    sleep 1
    kill -s "$signal" "$child" 2>/dev/null
    wait "$child" 2>/dev/null
    saw=$?
    if [ "$saw" -eq "$status" ] && grep -q "$sentence: for this film it takes about [0-9]" said && [ ! -e "$out" ] && [ ! -s wrote ] && no_leftover out; then ok=yes; else ok=no; fi
    report "$ok" "$what" "status $saw: $(tail -n 1 said)"
}

# ---- the C files
. "$top/station/faults/order.sh"

# ---- words
try 'no command' 64
try 'no such command' 64 enlarge film.pgm "$out"
try 'no OUT' 64 enhance film.pgm
try 'one word too many' 64 enhance film.pgm "$out" more
try 'an unknown option' 64 enhance film.pgm "$out" --colour red
try 'an option of another command' 64 enhance film.pgm "$out" --at 0,0
try 'an option without its value' 64 enhance film.pgm "$out" --grid
try 'an option twice' 64 enhance film.pgm "$out" --bins 64 --bins 64
try 'half a grid' 64 enhance film.pgm "$out" --grid 8x
try 'a signed number' 64 enhance film.pgm "$out" --grid +8x8
try 'a number above 32 bits' 64 enhance film.pgm "$out" --grid 8x4294967296
try 'a number of 40 digits' 64 enhance film.pgm "$out" --bins 1111111111222222222233333333334444444444
try 'an empty factor' 64 enhance film.pgm "$out" --clip ''
try 'a factor with a tail' 64 enhance film.pgm "$out" --clip 3.0x
try 'a window without a size' 64 window film.pgm "$out" --at 0,0
try '--bytes twice' 64 enhance film.pgm "$out" --bytes --bytes
try '--bytes of a listing' 64 listing film.pgm --bytes
told='--bytes takes a film of one byte a sample'
try '--bytes, and a film of two bytes a sample' 64 enhance film.pgm "$out" --bytes

# ---- settings that the library refuses
try '--grid 0x0' 3 enhance film.pgm "$out" --grid 0x0
try '--grid 8x17' 4 enhance film.pgm "$out" --grid 8x17
try 'the largest numbers of 32 bits' 3 enhance film.pgm "$out" --grid 4294967295x4294967295 --bins 4294967295
{ printf 'P5\n7 9\n255\n'; head -c 63 /dev/zero; } >narrow.pgm
{ printf 'P5\n9 7\n255\n'; head -c 63 /dev/zero; } >low.pgm
{ printf 'P5\n1 9\n255\n'; head -c 9 /dev/zero; } >column.pgm
try 'a width of 7, grid 8x8' 5 enhance narrow.pgm "$out"
try 'a height of 7, grid 8x8' 6 enhance low.pgm "$out"
try 'a width of 7, --grid 8x17' 4 enhance narrow.pgm "$out" --grid 8x17
try 'a width of 7, --grid 8x10: the width before the height' 5 enhance narrow.pgm "$out" --grid 8x10
try 'a height of 7, --range 0:4096, a window' 6 window low.pgm "$out" --range 0:4096 --at 0,0 --size 1x1
try '--bytes --bins 100, a width of 7' 5 enhance narrow.pgm "$out" --bytes --bins 100
try 'a listing of one column' 5 listing column.pgm
try '--range 0:4096' 7 enhance film.pgm "$out" --range 0:4096
try '--range 9:9' 8 enhance film.pgm "$out" --range 9:9
try '--bins 1' 9 enhance film.pgm "$out" --bins 1
try '--bins 4294967295' 9 enhance film.pgm "$out" --bins 4294967295
try '--clip nan' 10 enhance film.pgm "$out" --clip nan
try '--clip inf' 10 enhance film.pgm "$out" --clip inf
try '--clip 1e99' 10 enhance film.pgm "$out" --clip 1e99
try '--clip -1' 10 enhance film.pgm "$out" --clip -1
try 'a pixel above the range' 13 enhance film.pgm "$out" --range 0:1000
{ printf 'P5\n512 384\n255\n'; raster | head -c 196608; } >shallow.pgm
told='The rendering has greys above'
try 'a rendering above maxval, by --range' 26 enhance shallow.pgm "$out" --range 0:4095
told='outside the byte profile'
try '--bytes --bins 100' 30 enhance shallow.pgm "$out" --bytes --bins 100
told='outside the byte profile'
try '--bytes --grid 4x8, a window' 30 window shallow.pgm "$out" --grid 4x8 --bytes --at 0,0 --size 8x8
told='outside the byte profile'
try '--bytes --range 0:254, before 13' 30 enhance shallow.pgm "$out" --bytes --range 0:254
try '--bytes --grid 4x4 --clip nan' 10 enhance shallow.pgm "$out" --bytes --grid 4x4 --clip nan
try '--bytes --grid 17x8 --bins 100' 3 enhance shallow.pgm "$out" --bytes --grid 17x8 --bins 100
try '--bytes, and a window across the edge' 16 window shallow.pgm "$out" --bytes --at 511,0 --size 2x2
{ printf 'P5\n80 80\n15\n'; head -c 6400 /dev/zero; } >faint.pgm
told='There are more bins'
try '--bins 128, a film of 16 greys' 31 enhance faint.pgm "$out" --bins 128
told='There are more bins'
try '--bins 0, a film of 16 greys' 31 enhance faint.pgm "$out" --bins 0
told='There are more bins'
try '--bins 17, a film of 16 greys, a window' 31 window faint.pgm "$out" --bins 17 --at 0,0 --size 8x8
try '--range 0:100 --bins 102 --clip nan' 31 enhance film.pgm "$out" --range 0:100 --bins 102 --clip nan
try '--range 0:100 --bins 4097' 9 enhance film.pgm "$out" --range 0:100 --bins 4097
try '--range 0:100, and no --bins: a pixel above the range' 13 enhance film.pgm "$out" --range 0:100
told='There are more bins'
try '--bytes --range 0:100 --bins 128' 31 enhance shallow.pgm "$out" --bytes --range 0:100 --bins 128
told='outside the byte profile'
try '--bytes --range 0:100, and no --bins' 30 enhance shallow.pgm "$out" --bytes --range 0:100
try 'an empty window' 16 window film.pgm "$out" --at 0,0 --size 0x0
try 'a window across the edge' 16 window film.pgm "$out" --at 511,0 --size 2x2
try 'a window of 2^64 pixels' 16 window film.pgm "$out" --at 4294967295,4294967295 --size 4294967295x4294967295

# ---- a factor near 1.0: the limit that just holds a tile, told in the footer, and no refusal
told='limit 25, factor asked 1.00999999, factor used 1.0172526041666667'
try '--bins 125 --clip 1.01: rendered' 0 enhance film.pgm "$out" --bins 125 --clip 1.01
told='limit 25, factor asked 1.00000012, factor used 1.0172526041666667'
try 'the factor next above 1.0, a window: rendered' 0 window film.pgm "$out" --bins 125 --clip 1.00000012 --at 9,9 --size 7x7
{ printf 'P5\n80 80\n255\n'; head -c 6400 /dev/zero; } >small.pgm
told='limit 2, factor asked 1.25, factor used 1.28'
try '--bytes --bins 64 --clip 1.25, tiles of 100 pixels: rendered' 0 enhance small.pgm "$out" --bytes --bins 64 --clip 1.25

# ---- no --bins: 1024, or as many as the range has greys
told='limit 18,'
try 'no --bins, a film of 16 greys: 16 bins' 0 enhance faint.pgm "$out"
told='limit 150,'
try 'no --bins, a range of 2 greys, a window: 2 bins' 0 window faint.pgm "$out" --range 0:1 --at 7,7 --size 9x9
told='bins 1024, chosen by the range 0 to 4095'
try 'no --bins, a film of 4,096 greys: 1024 bins' 0 enhance film.pgm "$out"

# ---- bytes: inside the profile the film and the footer are those of the same command without --bytes
alike() { # WHAT FILM COMMAND SETTINGS..
    what=$1 film=$2 command=$3
    shift 3
    rm -f "$out" plain.pgm
    "$tz" "$command" "$film" plain.pgm "$@" 2>plain
    first=$?
    "$tz" "$command" --bytes "$film" "$out" "$@" 2>said
    saw=$?
    grep -v 'to type instead' plain >plain_footer
    grep -v 'to type instead' said | cmp -s - plain_footer || first=other
    if [ "$first,$saw" = 0,0 ] && cmp -s plain.pgm "$out" && no_leftover out; then ok=yes; else ok=no; fi
    report "$ok" "$what" "status $saw: $(head -n 1 said)"
}
alike '--bytes: the same film' shallow.pgm enhance
alike '--bytes --bins 0: the same film' shallow.pgm enhance --bins 0
alike '--bytes --bins 64 --clip 1.5: the same film' shallow.pgm enhance --bins 64 --clip 1.5
alike '--bytes --bins 256 --clip off: the same film' shallow.pgm enhance --bins 256 --clip off
alike '--bytes --clip 1: the same film' shallow.pgm enhance --clip 1
alike '--bytes: the same window' shallow.pgm window --at 101,37 --size 211x97
alike '--bytes --bins 256, the whole film as a window: the same' shallow.pgm window --at 0,0 --size 512x384 --bins 256 --clip 2.5

# ---- films of any size
. "$top/station/faults/sizes.sh"

# ---- bins that are chosen, and warnings
. "$top/station/faults/bins.sh"

# ---- files
: >empty.pgm
try 'an empty file' 20 enhance empty.pgm "$out"
printf 'hello\n' >text.pgm
try 'a text file' 20 enhance text.pgm "$out"
printf 'P5\n512 38' >cut.pgm
try 'a file cut in its header' 20 enhance cut.pgm "$out"
{ printf 'P5\n# scan\n512 384\n4095\n'; raster; } >comment.pgm
try 'a comment in the header' 21 enhance comment.pgm "$out"
{ printf 'P5\n99999 99999\n4095\n'; raster; } >huge.pgm
try 'a film of 99999 by 99999' 22 enhance huge.pgm "$out"
{ printf 'P5\n512 384\n65535\n'; raster; } >deep.pgm
try 'a maxval of 65535' 23 enhance deep.pgm "$out"
head -c 393231 film.pgm >short.pgm
try 'a file cut by one byte' 24 enhance short.pgm "$out"
{ cat film.pgm; printf x; } >long.pgm
try 'a file with one byte more' 25 enhance long.pgm "$out"
{ printf 'P5\n512 384\n1000\n'; raster; } >above.pgm
told='A sample is above'
try 'a sample above maxval' 26 enhance above.pgm "$out"
largest 65536 >white.pgm
"$tz" enhance big.pgm whole.pgm 2>said
over enhance white.pgm "$out" 2>said
saw=$?
if [ "$saw" -eq 0 ] && cmp -s whole.pgm "$out" && no_leftover out; then ok=yes; else ok=no; fi
report "$ok" 'a header of 64 KiB before the largest film: rendered' "status $saw"
largest 65537 >white.pgm
told='is longer than 33619968 bytes'
try 'one byte of white space more' 65 enhance white.pgm "$out"
largest 99999 >white.pgm
told='is longer than 33619968 bytes'
try 'a header of 99,999 bytes, a window' 65 window white.pgm "$out" --at 0,0 --size 8x8
rm white.pgm
cp before "$out"
told='standard input is longer'
{ printf 'P5'; tr '\0' ' ' </dev/zero; } 2>/dev/null | timeout 120 "$tz" enhance --force - "$out" >wrote 2>said
judge 'white space without end, through a pipe' 65 $?
told='is longer than 33619968 bytes'
try 'an input without end' 65 enhance /dev/zero "$out"
cp before "$out"
{ printf 'P5\n9999 9999\n4095\n'; cat /dev/zero; } 2>/dev/null | timeout 120 "$tz" enhance --force - "$out" >wrote 2>said
judge 'too large a film without end, through a pipe' 22 $?
cp before "$out"
{ printf 'P5\n4096 4096\n4095\n'; cat /dev/zero; } 2>/dev/null | timeout 120 "$tz" enhance --force - "$out" >wrote 2>said
judge 'a raster without end, through a pipe' 25 $?
try 'no such file' 66 enhance nowhere.pgm "$out"
try 'an input that is a folder' 66 enhance out "$out"
try 'a listing of a film too large for it' 22 listing film.pgm
printf 'P5 2 2 2 \0\1\2\0' >three.pgm
told='The listing has 4 bins'
try 'a listing of a film of three greys' 31 listing three.pgm

# ---- what the messages name
. "$top/station/faults/messages.sh"

# ---- standard input and output
cp before "$out"
"$tz" enhance --force - "$out" <&- >wrote 2>said
judge 'standard input closed' 74 $?
"$tz" enhance film.pgm - >&- 2>said
judge 'standard output closed' 74 $?
"$tz" listing film.pgm >&- 2>said
judge 'standard output closed, a refusal to tell' 22 $?
"$tz" enhance film.pgm - >/dev/full 2>said
judge 'standard output on a full device' 74 $?
{ "$tz" enhance film.pgm - 2>said; echo $? >status; } | head -c 9 >/dev/null
judge 'standard output a pipe that nobody reads' 74 "$(cat status)"
# shellcheck disable=SC2016
bare='mount -t tmpfs tmpfs /dev && [ -x "$0" ]' # a machine without /dev/null
if [ "$(id -u)" -eq 0 ] && unshare -m --propagation private sh -c "$bare" "$tz" 2>/dev/null; then
    told='a standard stream is closed'
    # shellcheck disable=SC2016
    unshare -m --propagation private sh -c "$bare"' && exec "$0" enhance --force - "$1" <&-' "$tz" "$out" >wrote 2>said
    judge 'standard input closed, and no /dev/null' 74 $?
else
    skip 'a closed standard stream without /dev/null: /dev cannot be hidden here'
fi
: >said
"$tz" enhance --force film.pgm "$out" 2>&-
saw=$?
if [ "$saw" -eq 0 ] && whole "$out"; then ok=yes; else ok=no; fi
report "$ok" 'standard error closed: the film is whole' "status $saw"
cp before "$out"
"$tz" enhance --force film.pgm "$out" <&- >&- 2>&-
saw=$?
if [ "$saw" -eq 0 ] && whole "$out"; then ok=yes; else ok=no; fi
report "$ok" 'all three closed: the film is whole' "status $saw"

# ---- the output
try 'an output that is a folder' 73 enhance film.pgm out
try 'an output in no folder' 73 enhance film.pgm nowhere/film.pgm
try 'an output with an empty name' 73 enhance film.pgm ''
try 'an output on a full device' 74 enhance film.pgm /dev/full
cp before "$out"
(ulimit -f 64; exec "$tz" enhance --force film.pgm "$out") >wrote 2>said
judge 'a file that may not grow beyond 32 or 64 KiB' 74 $?
cp before "$out"
chmod 640 "$out"
over enhance film.pgm "$out" 2>said
saw=$?
# shellcheck disable=SC2012
mode=$(ls -l "$out" | cut -c 1-10)
if [ "$saw" -eq 0 ] && whole "$out" && [ "$mode" = -rw-r----- ]; then ok=yes; else ok=no; fi
report "$ok" 'an output that is replaced: its mode kept' "status $saw, mode $mode"
if [ "$(id -u)" -eq 0 ]; then
    cp before "$out"
    chmod 0 "$out"
    over enhance film.pgm "$out" 2>said
    saw=$?
    # shellcheck disable=SC2012
    mode=$(ls -l "$out" | cut -c 1-10)
    if [ "$saw" -eq 0 ] && whole "$out" && [ "$mode" = ---------- ]; then ok=yes; else ok=no; fi
    report "$ok" 'root, and an output of mode 000: its mode kept' "status $saw, mode $mode"
else
    skip 'an output of mode 000: only root may replace it'
fi
rm -f "$out"

# ---- scans are never overwritten
. "$top/station/faults/scans.sh"

# ---- as a user who may not
drop=''
[ "$(id -u)" -ne 0 ] || drop='setpriv --reuid=65534 --regid=65534 --clear-groups --no-new-privs'
chmod 755 "$room" "$room/out"
if $drop "$tz" --help >wrote 2>said; then
    cp film.pgm locked.pgm
    chmod 0 locked.pgm
    cp before "$out"
    $drop "$tz" enhance --force locked.pgm "$out" >wrote 2>said
    judge 'an unreadable file' 66 $?
    mkdir -m 555 shut
    $drop "$tz" enhance film.pgm shut/new.pgm >wrote 2>said
    judge 'a folder that may not be written to' 73 $?
    mkdir -m 777 open
    cp before open/film.pgm
    chmod 444 open/film.pgm
    $drop "$tz" enhance --force film.pgm open/film.pgm >wrote 2>said
    saw=$?
    if [ "$saw" -eq 73 ] && cmp -s before open/film.pgm && no_leftover open; then ok=yes; else ok=no; fi
    report "$ok" 'a write-protected output' "status $saw: $(head -n 1 said)"
else
    skip 'an unreadable file, a folder that may not be written to, a write-protected output: nobody cannot run the program here'
fi

# ---- records, and habits
. "$top/station/faults/record.sh"
. "$top/station/faults/habits.sh"
. "$top/station/faults/options.sh"
. "$top/station/faults/verify.sh"
. "$top/station/faults/edition.sh"
. "$top/station/faults/direct.sh"
. "$top/station/faults/around.sh"
. "$top/station/faults/plain.sh"
. "$top/station/faults/batch.sh"

# ---- scans from elsewhere
. "$top/station/faults/import.sh"
. "$top/station/faults/mixed.sh"

# ---- flushing that fails
. "$top/station/faults/flush.sh"

# ---- a full disk
mkdir -p disk
if [ "$(id -u)" -eq 0 ] && mount -t tmpfs -o size=256k tmpfs "$room/disk" 2>/dev/null; then
    disk=$room/disk
    cp before disk/film.pgm
    "$tz" enhance --force film.pgm disk/film.pgm >wrote 2>said
    saw=$?
    if [ "$saw" -eq 74 ] && cmp -s before disk/film.pgm && no_leftover disk; then ok=yes; else ok=no; fi
    report "$ok" 'a full disk (256 KiB, the film has 384)' "status $saw: $(head -n 1 said)"
    umount "$disk" && disk=''
else
    skip 'a full disk: no file system can be mounted here'
fi

# ---- no memory: in steps of 8 MiB, from so little that nothing starts, until the film is rendered. Where the loader or
# the emulator finds no room for itself, the program has not begun: such runs are told apart by what is said.
kib=8192 steps=0 before_us=0 odd='' saw=71
cp before "$out"
# shellcheck disable=SC3045
while [ $# -eq 0 ] && [ "$kib" -lt 1000000 ] && [ "$saw" -ne 0 ]; do
    (ulimit -v "$kib" && exec timeout 120 "$tz" enhance --force big.pgm "$out") >wrote 2>said
    saw=$?
    if [ "$saw" -eq 71 ] && cmp -s before "$out" && no_leftover out; then
        steps=$((steps + 1))
    elif [ "$saw" -ne 0 ] && ! grep -q '^tzofnadir: ' said && cmp -s before "$out" && no_leftover out; then
        before_us=$((before_us + 1))
    elif [ "$saw" -ne 0 ]; then
        odd=", status $saw at $kib KiB"
    fi
    kib=$((kib + 8192))
done 2>/dev/null
if [ "$steps" -gt 0 ] && [ "$saw" -eq 0 ] && [ -z "$odd" ]; then ok=yes; else ok=no; fi
# shellcheck disable=SC3045
if [ $# -ne 0 ]; then
    skip 'no memory: this is another build of the program'
elif (ulimit -v 1000000) 2>/dev/null; then
    report "$ok" 'no memory: status 71 until there is enough' "$steps times 71, $before_us times nothing started$odd"
else
    skip 'no memory: this shell sets no limit'
fi

# ---- kills at the moment the new file appears, until three came before the rename
# shellcheck disable=SC3045
ulimit -c 0 2>/dev/null # QUIT and XCPU would leave cores
kill_in_the_middle() { # SIGNAL STATUS
    cp before "$out"
    $undo "$tz" enhance --force big.pgm "$out" >wrote 2>said &
    child=$!
    while no_leftover out && kill -0 "$child" 2>/dev/null; do :; done
    kill -s "$1" "$child" 2>/dev/null
    wait "$child" 2>/dev/null
    saw=$?
    if cmp -s before "$out" && [ "$saw" -eq "$2" ]; then old=$((old + 1));
    elif cmp -s whole.pgm "$out"; then new=$((new + 1));
    else neither=$((neither + 1)); fi
    no_leftover out || left=$((left + 1))
    rm -f out/.tzofnadir-*
}
for signal in TERM:143 HUP:129 INT:130 QUIT:131 XCPU:152 ALRM:142 USR1:138 KILL:137; do
    status=${signal#*:} signal=${signal%:*}
    case $signal in
    HUP | INT | QUIT) [ -n "$undo" ] || { skip "a kill by $signal: this env does not set signals back"; continue; } ;;
    esac
    old=0 new=0 neither=0 left=0
    while [ "$old" -lt 3 ] && [ $((new + neither)) -lt 24 ]; do kill_in_the_middle "$signal" "$status"; done
    ok=yes
    [ "$old" -eq 3 ] && [ "$neither" -eq 0 ] || ok=no
    # nothing can tidy up behind KILL; the part then lies beside OUT under its own name
    [ "$signal" = KILL ] || [ "$left" -eq 0 ] || ok=no
    report "$ok" "killed by $signal: OUT is the old text or the whole film" "status $status and the old text $old times, the whole film $new times, neither $neither times; $left parts left"
done

# ---- a look at a result
. "$top/station/faults/look.sh"

# ---- what is installed
. "$top/station/faults/delivery.sh"

# ---- several at once, a clone that may only be read, links, another toolchain
. "$top/station/faults/together.sh"

# ---- station/render
render() { # WHAT WANTED FILM
    cp before "$out"
    "$top/station/render" "$3" "$out" --force >wrote 2>built
    saw=$?
    tail -n 1 built >said
    judge "$1" "$2" "$saw"
}
render 'station/render: a refusal keeps its number' 20 "$room/cut.pgm"
export RATTLE_HOME="$room/nowhere"
told='the program could not be built'
render 'station/render where nothing can be built' 69 "$room/film.pgm"

echo "faults: $tried tried, $good as expected"
[ "$tried" -eq "$good" ]
