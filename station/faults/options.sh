# shellcheck shell=sh disable=SC2154,SC2034
# station/faults.sh reads this: -o, -q, -v, --range auto, info --json, and a PNG as output.
over enhance film.pgm alone.pgm 2>said
fresh_out() { # WHAT FILM WORDS..: OUT, which is not there before, is this film
    what=$1 wanted=$2
    shift 2
    rm -f "$out"
    "$tz" "$@" >wrote 2>said
    saw=$?
    if [ "$saw" -eq 0 ] && cmp -s "$wanted" "$out" && no_leftover out; then ok=yes; else ok=no; fi
    report "$ok" "$what" "status $saw: $(head -n 1 said | cut -c 1-90)"
}
fresh_out '-o OUT' alone.pgm enhance film.pgm -o "$out"
fresh_out '-o OUT before IN' alone.pgm enhance -o "$out" film.pgm
fresh_out '--output=OUT' alone.pgm enhance film.pgm --output="$out"
try '-o and a second name' 64 enhance film.pgm -o "$out" "$out"
try '-o twice' 64 enhance film.pgm -o "$out" --output "$out"
told='-o does not go with it'
try '-o with --into' 64 enhance film.pgm -o "$out" --into out
cp before "$out"
told='say --force to have it replaced'
"$tz" enhance film.pgm -o "$out" >wrote 2>said
judge '-o OUT, which is there' 64 $?
told='take a scan'
try '-o IN, --force' 64 enhance film.pgm -o film.pgm
fresh_out '-q' alone.pgm enhance film.pgm "$out" -q
if [ ! -s said ]; then ok=yes; else ok=no; fi
report "$ok" '-q: not a word' "$(head -n 1 said)"
try '-q and -v' 64 enhance film.pgm "$out" -q -v
told='512 by 384 pixels, maxval 4095: --grid 8x8 --bins 1024 --range 0:4095 --clip 3'
try '-v: size and settings' 0 enhance film.pgm "$out" -v
words=$(sed -n 's/^512 by .*: --grid/--grid/p' said)
# shellcheck disable=SC2086
fresh_out '-v: its words give the same film' alone.pgm enhance film.pgm "$out" $words
try '-v of info' 64 info film.pgm -v

# ---- the film's own range
over enhance film.pgm narrowed.pgm --range 450:3388 2>said
fresh_out '--range auto' narrowed.pgm enhance film.pgm "$out" --range auto
if grep -qxF "range 450 to 3388, the film's own" said; then ok=yes; else ok=no; fi
report "$ok" '--range auto: told' "$(grep '^range' said)"
over window film.pgm narrowed.pgm --range 450:3388 --at 9,9 --size 60x60 2>said
fresh_out '--range auto, a window' narrowed.pgm window film.pgm "$out" --range=auto --at 9,9 --size 60x60
told="range 0 to 255, the film's own"
try '--range auto, a film of one grey: 0 to maxval' 0 enhance little.pgm "$out" --range auto
try '--range Auto' 64 enhance film.pgm "$out" --range Auto
try '--range auto:9' 64 enhance film.pgm "$out" --range auto:9
told='outside the byte profile'
{ printf 'P5\n16 16\n255\n'; head -c 128 /dev/zero | tr '\0' '\5'; head -c 128 /dev/zero | tr '\0' x; } >greys.pgm
try '--range auto --bytes, greys of 5 to 120' 30 enhance greys.pgm "$out" --range auto --bytes --bins 64

# ---- info --json, and PNG
told=''
if command -v python3 >/dev/null; then
    "$tz" info film.pgm --json >wrote 2>said
    saw=$?
    if [ "$saw" -eq 0 ] && python3 -c 'import json, sys
info = json.load(open("wrote"))
assert info == {"file": "film.pgm", "width": 512, "height": 384, "maxval": 4095, "least": 450, "greatest": 3388,
                "across": list(range(2, 17)), "down": list(range(2, 17))}, info' 2>said; then ok=yes; else ok=no; fi
    report "$ok" 'info --json' "status $saw: $(tail -n 1 said)"
    { printf 'P5\n1 3\n9\n'; printf '\1\2\3'; } >thin.pgm
    saw=$("$tz" info --json thin.pgm 2>said | python3 -c 'import json, sys; info = json.load(sys.stdin); print(info["across"], info["down"])')
    if [ "$saw" = '[] [2, 3]' ]; then ok=yes; else ok=no; fi
    report "$ok" 'info --json: no grid fits a side of one pixel' "$saw"
    png() { # WHAT BITS FILM WORDS..: OUT.png is the film that OUT.pgm is
        what=$1 bits=$2 film=$3
        shift 3
        rm -f out/film.png plain.pgm
        "$tz" enhance "$film" plain.pgm "$@" 2>said
        "$tz" enhance "$film" out/film.png "$@" 2>said
        saw=$?
        ok=no
        if [ "$saw" -eq 0 ] && no_leftover out && python3 -B "$top/station/faults/png.py" out/film.png plain.pgm "$bits" >wrote 2>said; then ok=yes; fi
        report "$ok" "$what" "status $saw: $(cat wrote)$(tail -n 1 said)"
        rm -f out/film.png
    }
    png 'OUT a PNG: 16 bits for a film of 12' 16 film.pgm
    png 'OUT a PNG: 8 bits for a film of 8' 8 shallow.pgm
    png 'OUT a PNG: 16 greys' 8 faint.pgm
    { printf 'P5\n255 256\n255\n'; raster | head -c 65280; } >block.pgm # with its rows' first bytes one more than a block
    png 'OUT a PNG: one byte more than a block' 8 block.pgm --clip off
    # the largest film, of the sample's greys
    { printf 'P5\n4096 4096\n4095\n'; for i in $(seq 86); do raster; done | head -c 33554432; } >large.pgm
    png 'OUT a PNG: the largest film, 16 bits' 16 large.pgm
    rm -f large.pgm plain.pgm
    "$tz" window film.pgm out/film.png --at 5,6 --size 7x9 2>said
    saw=$?
    if [ "$saw" -eq 0 ] && [ "$(od -An -tu1 -j16 -N10 out/film.png | tr -s ' ')" = ' 0 0 0 7 0 0 0 9 16 0' ]; then ok=yes; else ok=no; fi
    report "$ok" 'OUT a PNG: a window' "status $saw"
    rm -f out/film.png
else
    skip 'info --json and a PNG as output: there is no python3 here'
fi
