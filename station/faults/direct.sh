# shellcheck shell=sh disable=SC2154,SC2034
# station/faults.sh reads this: the plain engine, direct, and check, which holds the fast one to it.
"$tz" window film.pgm plate.pgm --at 200,100 --size 131x97 --clip 1 -q
"$tz" window film.pgm flake.pgm --at 200,150 --size 40x31 --clip 1 -q

# ---- the words
told='a file name is missing'
try 'direct: no OUT' 64 direct plate.pgm
told='one word too many'
try 'direct: a third name' 64 direct plate.pgm "$out" "$out"
for words in '--bytes' "--into out" '--records' '--jobs 2' '--at 0,0' '--whole' '--json'; do
    told='this command has no such option'
    # shellcheck disable=SC2086
    try "direct $words" 64 direct plate.pgm "$out" $words
done
told='--quiet and --verbose do not go together'
try 'direct -q -v' 64 direct plate.pgm "$out" -q -v
told='--edition takes one of two words'
try 'direct --edition 1987' 64 direct plate.pgm "$out" --edition 1987
told='a file name is missing'
try 'check: no name' 64 check
told='one word too many'
try 'check: two names' 64 check plate.pgm flake.pgm
for words in '--bytes' '--force' '-v' "-o out/film.pgm" '--record r.json' '--size 8x8'; do
    told='this command has no such option'
    # shellcheck disable=SC2086
    try "check $words" 64 check plate.pgm $words
done
told='this option takes no value'
try 'check --whole=yes' 64 check plate.pgm --whole=yes
told='this command has no such option'
try 'enhance --whole' 64 enhance plate.pgm "$out" --whole

# ---- the same film and the same footer
painted() { # FILM SETTINGS..
    film=$1
    shift
    rm -f fast.pgm
    "$tz" enhance "$film" fast.pgm "$@" 2>fast
    fresh_out "direct $* of $film: the film of enhance" fast.pgm direct "$film" "$out" "$@"
    if cmp -s fast said; then ok=yes; else ok=no; fi
    report "$ok" "direct $* of $film: the same is told" "$(tail -n 1 said | cut -c 1-80)"
}
painted plate.pgm
painted plate.pgm --bins 0 --clip off
painted plate.pgm --bins 4096 --clip 1.5
painted plate.pgm --grid 2x3 --bins 64 --edition 1986
painted plate.pgm --clip 1
painted flake.pgm --grid 16x16 --bins 2 --clip 1024
painted flake.pgm --range auto -v
painted little.pgm
"$tz" plain flake.pgm flake.txt -q
rm -f fast.pgm
"$tz" enhance flake.pgm fast.pgm 2>said
fresh_out 'direct of a plain film' fast.pgm direct flake.txt "$out"
fresh_out 'direct -q' fast.pgm direct flake.pgm "$out" -q
if [ ! -s said ]; then ok=yes; else ok=no; fi
report "$ok" 'direct -q: not a word' "$(head -n 1 said)"
rm -f fast.png out/film.png
"$tz" enhance flake.pgm fast.png -q && "$tz" direct flake.pgm out/film.png -q
saw=$?
if [ "$saw" -eq 0 ] && cmp -s fast.png out/film.png; then ok=yes; else ok=no; fi
report "$ok" 'direct: OUT a PNG' "status $saw"
rm -f out/film.png wrote
"$tz" direct flake.pgm - >wrote 2>said
saw=$?
if [ "$saw" -eq 0 ] && cmp -s fast.pgm wrote; then ok=yes; else ok=no; fi
report "$ok" 'direct to standard output' "status $saw"

# ---- what is refused: as enhance does
for words in '--grid 1x8' '--grid 8x17' '--range 0:4096' '--range 9:9' '--bins 1' '--bins 4096 --range 0:100' '--clip nan' '--clip 0.5' '--range 0:1000'; do
    cp before "$out"
    # shellcheck disable=SC2086
    over enhance plate.pgm "$out" $words 2>fast
    number=$?
    # shellcheck disable=SC2086
    try "direct $words: $number, as enhance" "$number" direct plate.pgm "$out" $words
    if cmp -s fast said && [ "$number" -gt 0 ]; then ok=yes; else ok=no; fi
    report "$ok" "direct $words: in the same words" "$(tail -n 1 said | cut -c 1-80)"
    # shellcheck disable=SC2086
    try "check $words: $number, which both engines say" "$number" check plate.pgm $words
    if cmp -s fast said && [ ! -s wrote ]; then ok=yes; else ok=no; fi
    report "$ok" "check $words: in the same words, and no verdict" "$(head -n 1 said | cut -c 1-80)"
done
{ printf 'P5\n4097 16\n255\n'; head -c 65552 /dev/zero; } >wide.pgm
for command in direct check; do
    to=$out
    [ "$command" = direct ] || to=''
    told='The header says 4097 by 16 pixels'
    try "$command: a film too wide" 22 "$command" wide.pgm ${to:+"$to"}
    try "$command: a width of 7, grid 8x8" 5 "$command" narrow.pgm ${to:+"$to"}
    try "$command: a file cut by one byte" 24 "$command" short.pgm ${to:+"$to"}
    try "$command: no such file" 66 "$command" nowhere.pgm ${to:+"$to"}
done
told='The rendering has greys above'
{ printf 'P5\n40 31\n255\n'; raster | head -c 1240; } >faded.pgm
try 'direct: a rendering above maxval, by --range' 26 direct faded.pgm "$out" --range 0:4095

# ---- no scan is overwritten, and what is there only by --force
lay_scans
untouched 'direct: OUT is IN' 64 "$of_scan" direct a.pgm a.pgm
untouched 'direct: OUT is IN, --force' 64 "$of_scan" direct --force b.pgm ./b.pgm
untouched 'direct: OUT is there' 64 'say --force to have it replaced' direct b.pgm note.txt
untouched 'direct: a record in the place of IN, --force' 64 "$of_scan" direct --force b.pgm ../kept/new.pgm --record b.pgm
try 'direct: an output in no folder' 73 direct flake.pgm nowhere/film.pgm
try 'direct: an output on a full device' 74 direct flake.pgm /dev/full
if [ -d shut ]; then
    $drop "$tz" direct flake.pgm shut/new.pgm >wrote 2>said
    judge 'direct: a folder that may not be written to' 73 $?
fi

# ---- the record
rm -f "$out" "$record" fast.pgm fast.json
"$tz" enhance plate.pgm fast.pgm --clip 2.3 --record fast.json -q
"$tz" direct plate.pgm "$out" --clip 2.3 --record "$record" -q
saw=$?
sed "s|fast\.pgm|$out|; s|\"enhance\"|\"direct\"|" fast.json >wanted
if [ "$saw" -eq 0 ] && cmp -s wanted "$record"; then ok=yes; else ok=no; fi
report "$ok" "direct's record is enhance's, but for the command and the name" "status $saw"
"$tz" verify "$record" >wrote 2>said
saw=$?
if [ "$saw" -eq 0 ] && [ "$(cut -f 2 wrote | tr '\n' ' ')" = 'same same same same ' ]; then ok=yes; else ok=no; fi
report "$ok" "verify of direct's record, by the fast engine" "status $saw: $(cut -f 2 wrote | tr '\n' ' ')"
rm -f "$record"

# ---- check
agree() { # WHAT TOLD WORDS..: status 0, this sentence alone, nothing written anywhere
    what=$1 told=$2
    shift 2
    ls >was
    timeout 900 "$tz" check "$@" >wrote 2>said
    saw=$?
    ls >is
    if [ "$saw" -eq 0 ] && [ "$(cat wrote)" = "$told" ] && cmp -s was is; then ok=yes; else ok=no; fi
    told=''
    report "$ok" "$what" "status $saw: $(head -n 1 wrote)$(head -n 1 said)"
}
: >was
: >is
agree 'check: a film' 'both engines agree: 131 by 97 pixels, --grid 8x8 --bins 576 --range 0:4095 --clip 3' plate.pgm
agree 'check: settings' 'both engines agree: 131 by 97 pixels, --grid 2x3 --bins 128 --range 0:4095 --clip off' plate.pgm --grid 2x3 --bins 0 --clip off
agree 'check: the edition of 1986' 'both engines agree: 40 by 31 pixels, --grid 8x8 --bins 64 --range 0:4095 --clip 2.5 --edition 1986' flake.pgm --bins 64 --clip 2.5 --edition 1986
agree 'check: factor 1.0, the largest film' 'both engines agree: 4096 by 4096 pixels, --grid 8x8 --bins 1024 --range 0:4095 --clip 1' big.pgm --clip 1
agree 'check --whole of a small film' 'both engines agree: 40 by 31 pixels, --grid 8x8 --bins 45 --range 0:4095 --clip 3' flake.pgm --whole
agree 'check -q: not a word' '' plate.pgm -q
if [ ! -s said ]; then ok=yes; else ok=no; fi
report "$ok" 'check -q: nothing told either' "$(head -n 1 said)"
"$tz" check plate.pgm >/dev/full 2>said
saw=$?
if [ "$saw" -eq 74 ]; then ok=yes; else ok=no; fi
report "$ok" 'check on a full device' "status $saw: $(head -n 1 said)"
"$tz" plain flake.pgm - 2>said | "$tz" check - --bins 64 >wrote 2>said
saw=$?
if [ "$saw" -eq 0 ] && grep -q '^both engines agree: 40 by 31 pixels' wrote; then ok=yes; else ok=no; fi
report "$ok" 'check of standard input' "status $saw: $(cat wrote)"

# ---- a large film: a sample, and it says of what; all of it takes its time, which is told
{ printf 'P5\n1100 1000\n4095\n'; for i in 1 2 3 4 5 6; do raster; done | head -c 2200000; } >plates.pgm
agree 'check: of a large film a sample' "both engines agree on a sample: 1100 by 1000 pixels, --grid 8x8 --bins 256 --range 0:4095 --clip 3
compared: the film's own first 54912 pixels of 1100000, row by row from the top
compared: 5 parts of 312 by 312 pixels, corners and middle, each rendered as a film of its own" plates.pgm --bins 256
if grep -q '^plates.pgm: --whole compares all pixels, in about [0-9]' said; then ok=yes; else ok=no; fi
report "$ok" 'check: of a large film, how long all of it takes' "$(tail -n 1 said)"
slowly='the plain engine counts four tiles for each pixel'
for signal in TERM:143 INT:130 ALRM:142; do
    stopped_slow "direct: the time is told beforehand; stopped by ${signal%:*}, no film is left" "$signal" "$slowly" \
        direct plates.pgm "$out" --grid 2x2
done
stopped_slow 'check --whole: the time is told beforehand; stopped' TERM:143 "$slowly" check plates.pgm --whole --grid 2x2

# ---- progress, on a terminal alone
"$tz" direct film.pgm slow.pgm 2>said
if ! grep -q '%' said && ! grep -q rendering said; then ok=yes; else ok=no; fi
report "$ok" 'direct: no progress where there is no terminal' "$(wc -l <said) lines"
if command -v script >/dev/null; then
    script -qec "'$tz' direct --force film.pgm slow.pgm" typed </dev/null >/dev/null 2>&1
    bar=$(printf '\r\033[Kfilm.pgm: rendering, ')
    steps=$(tr '\r' '\n' <typed | grep -c 'film.pgm: rendering, [0-9]* %')
    end=$(printf '\r\033[Kbins 1024')
    if [ "$steps" -gt 2 ] && grep -qF "$bar" typed && grep -qF "$end" typed && cmp -s alone.pgm slow.pgm; then ok=yes; else ok=no; fi
    report "$ok" 'direct on a terminal: how far it is, and the line is gone at the end' "$steps times: $(tr '\r' '\n' <typed | grep '%' | tail -n 1 | tr -d '\033')"
    script -qec "'$tz' direct --force --quiet plate.pgm slow.pgm" typed </dev/null >/dev/null 2>&1
    if ! grep -q 'rendering' typed; then ok=yes; else ok=no; fi
    report "$ok" 'direct --quiet on a terminal: nothing' "$(wc -c <typed) bytes"
else
    skip 'progress of direct: there is no script here'
fi
rm -f slow.pgm

# ---- engines that differ: a plain one that is wrong in one thing
mkdir -p wrong_engine
bad=''
for source in $(cd "$top" && station/sources) station/faults/wrong.c; do
    name=''
    [ "$source" != station/painting.c ] || name=-Dtz_direct=wrong_direct
    "$top/toolchain/compile" x86_64 "$top/$source" "wrong_engine/$(basename "$source" .c).o" -O2 ${name:+"$name"} 2>>said || bad=yes
done
"$top/toolchain/link" x86_64 wrong_engine/tzofnadir.x86-64 wrong_engine/*.o "$(cd "$top" && toolchain/library | sed "s|^|$top/|")" 2>>said || bad=yes
cp "$top/target/station/tzofnadir" wrong_engine/tzofnadir
if [ -z "$bad" ]; then ok=yes; else ok=no; fi
report "$ok" 'a plain engine that is wrong, linked' "$(tail -n 1 said)"
differs() { # WRONG TOLD WORDS..
    wrong=$1 told=$2
    shift 2
    WRONG=$wrong timeout 900 wrong_engine/tzofnadir check "$@" >wrote 2>said
    saw=$?
    if [ "$saw" -eq 77 ] && [ ! -s wrote ] && grep -q ': the engines differ$' said && grep -qF -- "$told" said; then ok=yes; else ok=no; fi
    told=''
    report "$ok" "check, the plain one with another $wrong" "status $saw: $(sed -n 2p said | cut -c 1-100)"
}
WRONG=nothing wrong_engine/tzofnadir check plate.pgm >wrote 2>said
saw=$?
if [ "$saw" -eq 0 ] && grep -q '^both engines agree' wrote; then ok=yes; else ok=no; fi
report "$ok" 'check, the plain one wrong in nothing' "status $saw: $(cat wrote)"
"$tz" enhance --force plate.pgm fast.pgm -q
last=$(tail -c 2 fast.pgm | od -An -tu1 | { read -r high low; echo $((high * 256 + low)); })
differs pixel "The first pixel that differs is at column 130, row 96: the fast one gives $last, the plain one $((last ^ 1))." plate.pgm
differs pixel 'Of the 12707 pixels compared 1 differ.' plate.pgm
differs pixels 'The first pixel that differs is at column 7, row 3: ' plate.pgm
differs pixels 'Of the 12707 pixels compared 12307 differ.' plate.pgm
differs answer 'The fast one answers 0, the plain one 13: A pixel of the film lies outside the grey range.' plate.pgm
differs refusal 'The fast one answers 13, the plain one 12: ' plate.pgm --range 0:1000
differs footer "The fast one's footer is limit 11, factor asked 3, factor used 2.9333333333333331; the plain one" flake.pgm --bins 4
differs scratch 'Their pictures and footers are the same, but they leave scratch otherwise.' plate.pgm
differs behind 'Their pictures and footers are the same, but they leave scratch otherwise.' plate.pgm --clip 1
differs pixel 'In the part of 312 by 312 pixels from column 0, row 0 on, rendered as a film of its own:' plates.pgm --bins 256
rm -rf wrong_engine plates.pgm
