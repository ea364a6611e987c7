# shellcheck shell=sh disable=SC2154,SC2034
# station/faults.sh reads this: around, a window around each pixel, its words, refusals, record and time.
"$tz" window film.pgm patch.pgm --at 200,100 --size 131x97 --clip 1 -q
"$tz" window film.pgm chip.pgm --at 200,150 --size 40x31 --clip 1 -q
printf 'P5\n1 1\n255\n\007' >dot.pgm

# ---- the words
told='a file name is missing'
try 'around: no OUT' 64 around patch.pgm
told='one word too many (several films want --into FOLDER)'
try 'around: a third name' 64 around patch.pgm "$out" "$out"
for words in '--grid 8x8' '--grid=8x8' '--grid 8x8 --side 31' '--side 31 --grid 4x4' '--grid nonsense'; do
    told='around has no tiles, as each pixel has a region of its own: --side takes the place of --grid'
    # shellcheck disable=SC2086
    try "around $words" 64 around patch.pgm "$out" $words
done
for words in '--bytes' '--at 0,0' '--size 8x8' '--whole' '--json' '--scan x'; do
    told='this command has no such option'
    # shellcheck disable=SC2086
    try "around $words" 64 around patch.pgm "$out" $words
done
told='a value is missing behind: --side'
try 'around --side without its value' 64 around patch.pgm "$out" --side
told='this option is given twice: --side'
try 'around --side twice' 64 around patch.pgm "$out" --side 31 --side 31
for word in 31x 31.0 -31 +31 ' 31' 0x1f 4294967296 thirty-one ''; do
    told='--side does not take this value'
    try "around --side '$word'" 64 around patch.pgm "$out" --side "$word"
done
for command in enhance direct; do
    told='--side goes with around, where each pixel has a region of its own; tiles have --grid'
    try "$command --side 31" 64 "$command" patch.pgm "$out" --side 31
done
told='--side goes with around'
try 'window --side 31' 64 window patch.pgm "$out" --at 0,0 --size 8x8 --side 31
told='--side goes with around'
try 'check --side 31' 64 check patch.pgm --side 31
for command in info listing verify raw; do
    told='no such option: --side'
    try "$command --side" 64 "$command" patch.pgm --side 31
done
told='--into gives each film its name there'
try 'around --into and -o' 64 around --into folder patch.pgm -o "$out"
told='--records goes with --into'
try 'around --records without --into' 64 around patch.pgm "$out" --records

# ---- what the library refuses: 39 behind a film's own, before all else
for row in '0:--side 3 is the nearest' '1:--side 3 is the nearest' '2:--side 3 is the nearest' '4:--side 3 and --side 5 are the nearest' \
    '32:--side 31 and --side 33 are the nearest' '62:--side 61 and --side 63 are the nearest' '64:--side 63 is the nearest' \
    '65:--side 63 is the nearest' '4294967295:--side 63 is the nearest'; do
    told=${row#*:}
    try "around --side ${row%%:*}" 39 around patch.pgm "$out" --side "${row%%:*}"
done
told='The side of the region around a pixel is even or not 3 to 63.'
try 'around --side 32: its sentence' 39 around patch.pgm "$out" --side 32
try 'around --side 32 --range 0:4096: 39 before 7' 39 around patch.pgm "$out" --side 32 --range 0:4096
try 'around --side 32 --range 0:1000: 39 before 13' 39 around patch.pgm "$out" --side 32 --range 0:1000
try 'around --side 32 of a file cut by one byte: 24 before 39' 24 around short.pgm "$out" --side 32
try 'around --range 0:4096' 7 around patch.pgm "$out" --range 0:4096
try 'around --range 9:9' 8 around patch.pgm "$out" --range 9:9
try 'around --bins 1' 9 around patch.pgm "$out" --bins 1
try 'around --bins 4294967295' 9 around patch.pgm "$out" --bins 4294967295
try 'around --bins 4096 --range 0:100' 31 around patch.pgm "$out" --bins 4096 --range 0:100
told='The settings were --side 31 --bins 120 --range 0:4095 (4096 greys) --clip 0.5 --edition ours.'
try 'around --clip 0.5: the settings, without a grid' 10 around patch.pgm "$out" --clip 0.5
try 'around --clip nan' 10 around patch.pgm "$out" --clip nan
told='The first is at column 0, row 0'
try 'around --range 0:1000' 13 around patch.pgm "$out" --range 0:1000
{ printf 'P5\n4097 16\n255\n'; head -c 65552 /dev/zero; } >wide.pgm
try 'around: a film too wide' 22 around wide.pgm "$out"
try 'around: no such file' 66 around nowhere.pgm "$out"
{ printf 'P5\n40 31\n255\n'; raster | head -c 1240; } >faded.pgm
told='The rendering has greys above'
try 'around: a rendering above maxval, by --range' 26 around faded.pgm "$out" --range 0:4095

# ---- the film
rm -f round.pgm
"$tz" around patch.pgm round.pgm 2>said
saw=$?
if [ "$saw" -eq 0 ] && [ "$(cat said)" = 'bins 120, chosen by the range 0 to 4095 and regions of 961 pixels
limit 6, factor asked 3, factor used 2.8125 (of the region of column 0, row 0; others are larger)' ]; then ok=yes; else ok=no; fi
report "$ok" 'around: what is told' "status $saw: $(tail -n 1 said)"
fresh_out 'around --side 31: the film without the word' round.pgm around patch.pgm "$out" --side 31
fresh_out 'around --side=31 -o OUT -q' round.pgm around patch.pgm --side=31 -o "$out" -q
if [ ! -s said ]; then ok=yes; else ok=no; fi
report "$ok" 'around -q: not a word' "$(head -n 1 said)"
fresh_out 'around -v' round.pgm around patch.pgm "$out" -v
words=$(sed -n 's/^131 by .*: --side/--side/p' said)
# shellcheck disable=SC2086
fresh_out "around -v: its words give the same film" round.pgm around patch.pgm "$out" ${words:---nothing}
"$tz" enhance --force patch.pgm fast.pgm -q
if ! cmp -s round.pgm fast.pgm; then ok=yes; else ok=no; fi
report "$ok" "around: another film than enhance's" ''
fresh_out 'around --clip 1: the film unchanged' patch.pgm around patch.pgm "$out" --clip 1
fresh_out 'around of one pixel, which no grid fits: the top of the range' dot.pgm around dot.pgm "$out" --range 0:7 --bins 8
told='refused, 5'
try 'enhance of one pixel' 5 enhance dot.pgm "$out"
"$tz" plain patch.pgm patch.txt -q --force
fresh_out 'around of a plain film' round.pgm around patch.txt "$out"
rm -f wrote
"$tz" around patch.pgm - >wrote 2>said
saw=$?
if [ "$saw" -eq 0 ] && cmp -s round.pgm wrote; then ok=yes; else ok=no; fi
report "$ok" 'around to standard output' "status $saw"
"$tz" around - - <patch.pgm >wrote 2>said
saw=$?
if [ "$saw" -eq 0 ] && cmp -s round.pgm wrote; then ok=yes; else ok=no; fi
report "$ok" 'around of standard input' "status $saw"
rm -f out/film.png
"$tz" around patch.pgm out/film.png -q
saw=$?
if [ "$saw" -eq 0 ] && [ "$(head -c 4 out/film.png | tail -c 3)" = PNG ]; then ok=yes; else ok=no; fi
report "$ok" 'around: OUT a PNG' "status $saw"
rm -f out/film.png
if command -v python3 >/dev/null; then
    parts cut film.pgm 40 33 odd.pgm
    sized '40 by 33, around' around
    sized '40 by 33, around --side 3 --bins 9 --clip 2' around --side 3 --bins 9 --clip 2
    sized '40 by 33, around --side 63: regions wider than the film' around --side 63
    sized '40 by 33, around --side 15 --bins 400, the factor next above 1.0' around --side 15 --bins 400 --clip 1.00000012
    sized '40 by 33, around --clip off' around --clip off --bins 64
    sized '40 by 33, around --clip 1' around --clip 1
    sized '40 by 33, around by 1986' around --edition 1986 --bins 50
    sized '40 by 33, around --range auto' around --range auto
    parts cut film.pgm 1 9 odd.pgm
    sized '1 by 9, around' around
    parts cut film.pgm 1 1 odd.pgm
    sized '1 by 1, around' around --side 63
    "$tz" around --force film.pgm slow.pgm -q
    saw=$(python3 -B "$top/station/pits.py" --part 200,100 --margin 15 slow.pgm round.pgm 2>&1)
    if [ "$saw" = "round.pgm	0.00	0.00" ]; then ok=yes; else ok=no; fi
    report "$ok" 'around: a part of the film with its margin is the same' "$saw"
    "$tz" enhance --force film.pgm slow.pgm -q
    saw=$(python3 -B "$top/station/pits.py" --part 200,100 --margin 15 slow.pgm fast.pgm 2>&1)
    if [ "$saw" != "fast.pgm	0.00	0.00" ]; then ok=yes; else ok=no; fi
    report "$ok" 'enhance: by the grid of a part it is another' "$saw"
else
    skip 'films around each pixel against the second program: there is no python3 here'
fi

# ---- bins that are chosen, and warnings with the words to type instead
while read -r size side range clip bins; do
    case $size in '#'* | '') continue ;; esac
    flat_film "$size" >one_grey.pgm
    rm -f "$out"
    "$tz" around one_grey.pgm "$out" --side "$side" --range "$range" --clip "$clip" 2>said
    saw=$(sed -n 's/^bins \([0-9]*\), chosen.*/\1/p' said)
    if [ "$saw" = "$bins" ]; then ok=yes; else ok=no; fi
    report "$ok" "bins around: $size, side $side, range $range, clip $clip" "$saw"
done <"$top/station/faults/regions.txt"
if command -v python3 >/dev/null; then
    if python3 -B "$top/station/faults/bins.py" "$top/station/faults/regions.txt" >said 2>&1; then ok=yes; else ok=no; fi
    report "$ok" 'bins around each pixel by the rule, in fractions: those of the table' "$(head -n 1 said)"
fi
rm -f "$out"
"$tz" around film.pgm "$out" --bins 1024 2>said
better=$(sed -n 's/^  to type instead: //p' said)
if grep -q '^warning: the factor used is 2.13, and 3 was asked: a region has 961 pixels and 1024 bins$' said && grep -q '^warning: a region has 961 pixels and 1024 bins: so many show patches that are not in the film$' said && [ "$better" = '--bins 120' ]; then ok=yes; else ok=no; fi
report "$ok" 'around --bins 1024: warned of' "$better"
"$tz" around film.pgm slow.pgm --force -q
# shellcheck disable=SC2086
fresh_out 'around: with the words of the warning' slow.pgm around film.pgm "$out" $better
if ! grep -q '^warning' said; then ok=yes; else ok=no; fi
report "$ok" 'around: and no warning then' "$(tail -n 1 said)"
told='warning: the film has one grey alone, 257'
try 'around: a film of one grey' 0 around one_grey.pgm "$out"

# ---- no scan is overwritten, and what is there only by --force
lay_scans
untouched 'around: OUT is IN' 64 "$of_scan" around a.pgm a.pgm
untouched 'around: OUT is IN, --force' 64 "$of_scan" around --force b.pgm ./b.pgm
untouched 'around: OUT is there' 64 'say --force to have it replaced' around b.pgm note.txt
untouched 'around: a record in the place of IN, --force' 64 "$of_scan" around --force b.pgm ../kept/new.pgm --record b.pgm
untouched 'around: a record in the place of OUT' 64 "the record would take the rendering's place" around b.pgm ../kept/new.pgm --record ../kept/new.pgm
untouched 'around --into the folder of the scans, --force' 64 "$of_scan" around --force --into . a.pgm b.pgm
try 'around: an output in no folder' 73 around chip.pgm nowhere/film.pgm
try 'around: an output on a full device' 74 around chip.pgm /dev/full
if [ -d shut ]; then
    $drop "$tz" around chip.pgm shut/new.pgm >wrote 2>said
    judge 'around: a folder that may not be written to' 73 $?
fi

# ---- the record, and verify of it
lay
(cd "$place" && "$tz" around scan.pgm round.pgm --side 15 --clip 2.5 --record round.json -q)
saw=$(tr -d ' \n' <"$place/round.json" | sed 's/.*"settings"/"settings"/')
wanted='"settings":{"side":15,"bins":64,"min":0,"max":4095,"clip":true,"factor":2.5,"edition":"ours","by_bytes":false},"window":null,"limit":2,"factor_asked":2.5,"factor_used":2}'
if [ "$saw" = "$wanted" ] && grep -q '^  "command": "around",$' "$place/round.json"; then ok=yes; else ok=no; fi
report "$ok" "around's record: the side, and no grid and no tiles" "$saw"
held "verify: around's record" 0 '' "$all" round.json
others='scan=same settings=other rendering=other file=same '
edited 'verify: around, another side' 76 'rendered again' "$others" round.json '"side": 15' '"side": 17'
edited 'verify: around, an even side' 76 'refused, 39' 'scan=same settings=other rendering=unseen file=same ' round.json '"side": 15' '"side": 16'
edited 'verify: around, a side of 0' 76 'refused, 39' 'scan=same settings=other rendering=unseen file=same ' round.json '"side": 15' '"side": 0'
edited 'verify: around, a grid instead' 76 'rendered again' "$others" round.json '"side": 15' '"across": 8, "down": 8'
edited 'verify: around, a grid besides' 65 'as a record does: side' '' round.json '"side": 15' '"side": 15, "across": 8, "down": 8'
edited 'verify: around, half a grid besides' 65 'as a record does: side' '' round.json '"side": 15' '"side": 15, "down": 8'
edited 'verify: neither side nor grid' 65 'as a record does: across' '' round.json '    "side": 15,' ''
edited 'verify: around, a window' 65 'as a record does: window' '' round.json '"window": null' '"window": {"left": 0, "top": 0, "width": 8, "height": 8}'
edited 'verify: around, by bytes' 65 'as a record does: by_bytes' '' round.json '"by_bytes": false' '"by_bytes": true'
for word in '"15"' 15.5 -15 null true '[15]' 4294967296; do
    edited "verify: around, a side of $word" 65 'as a record does: side' '' round.json '"side": 15' "\"side\": $word"
done
rm -rf rounds
"$tz" around --into rounds --records film.pgm patch.pgm "$scans" --side 7 --jobs 2 2>said
saw=$?
bad=''
for name in film patch a b; do
    "$tz" verify "rounds/$name.pgm.json" >wrote 2>&1 && [ "$(field side "rounds/$name.pgm.json")" = '7 ' ] || bad="$bad $name"
done
if [ "$saw" -eq 0 ] && [ -z "$bad" ] && [ "$(tail -n 1 said)" = '4 films rendered into rounds' ]; then ok=yes; else ok=no; fi
report "$ok" 'around: several films, with records' "status $saw: $(tail -n 1 said)$bad"
"$tz" around --into rounds --force film.pgm narrow.pgm --side 8 2>said
saw=$?
if [ "$saw" -eq 39 ] && grep -q '^tzofnadir: 2 of 2 films were not rendered:$' said; then ok=yes; else ok=no; fi
report "$ok" 'around: several films, all refused' "status $saw: $(tail -n 1 said)"
rm -rf rounds

# ---- a film that takes long: the time is told beforehand; stopped, nothing is left
for signal in TERM:143 INT:130 ALRM:142 KILL:137; do
    stopped_slow "around: the time is told beforehand; stopped by ${signal%:*}, no film is left" "$signal" \
        'big.pgm: each pixel has a region of its own' around big.pgm "$out" --bins 4096
done

# ---- progress, on a terminal alone
# The clip rule of 1986 looks at all bins, empty ones too, so that it takes seconds.
{ printf 'P5\n512 1536\n4095\n'; raster; raster; raster; raster; } >tall.pgm
"$tz" around tall.pgm slow.pgm --force --bins 4096 --edition 1986 2>said
if ! grep -q '%' said && ! grep -q rendering said; then ok=yes; else ok=no; fi
report "$ok" 'around: no progress where there is no terminal' "$(wc -l <said) lines"
if command -v script >/dev/null; then
    cp slow.pgm alike.pgm
    script -qec "'$tz' around --force tall.pgm slow.pgm --bins 4096 --edition 1986" typed </dev/null >/dev/null 2>&1
    steps=$(tr '\r' '\n' <typed | grep -c 'tall.pgm: rendering, [0-9]* %')
    end=$(printf '\r\033[Klimit ')
    if [ "$steps" -gt 2 ] && grep -qF "$end" typed && cmp -s alike.pgm slow.pgm; then ok=yes; else ok=no; fi
    report "$ok" 'around on a terminal: how far it is, and the line is gone at the end' "$steps times: $(tr '\r' '\n' <typed | grep '%' | tail -n 1 | tr -d '\033')"
    script -qec "'$tz' around --force --into rounds film.pgm patch.pgm chip.pgm --jobs 1 --bins 4096" typed </dev/null >/dev/null 2>&1
    if ! grep -q 'rendering' typed && grep -q '2 of 3 films done' typed && grep -q '^3 films rendered into rounds' typed; then ok=yes; else ok=no; fi
    report "$ok" 'around on a terminal, several films: how many are done' "$(tr '\r' '\n' <typed | grep 'films done' | tail -n 1 | tr -d '\033')"
    rm -rf rounds
    script -qec "'$tz' around --force --quiet film.pgm slow.pgm --bins 4096" typed </dev/null >/dev/null 2>&1
    if ! grep -q 'rendering' typed; then ok=yes; else ok=no; fi
    report "$ok" 'around --quiet on a terminal: nothing' "$(wc -c <typed) bytes"
else
    skip 'progress of around: there is no script here'
fi
rm -f slow.pgm alike.pgm tall.pgm
