# shellcheck shell=sh disable=SC2154,SC2034
# station/faults.sh reads this: films of any size. Whole and through a window each is held to the second program.
parts() { python3 -B "$top/station/faults/sizes.py" "$@"; }
sized() { # WHAT COMMAND SETTINGS..: odd.pgm, by the program and by the second program
    what=$1 command=$2
    shift 2
    rm -f "$out" odd.json
    "$tz" "$command" odd.pgm "$out" --record odd.json "$@" >wrote 2>said
    saw=$?
    ok=no
    if [ "$saw" -eq 0 ] && no_leftover out && parts judge odd.pgm "$out" odd.json >judged 2>&1; then ok=yes; fi
    report "$ok" "$what" "status $saw: $(tail -n 1 said); $(tail -n 1 judged)"
}
if command -v python3 >/dev/null; then
    parts cut film.pgm 131 97 odd.pgm
    sized '131 by 97, grid 8x8' enhance
    sized '131 by 97, --grid 7x5 --bins 16 --clip 1.2: limits of 25 to 28' enhance --grid 7x5 --bins 16 --clip 1.2
    sized '131 by 97, the factor next above 1.0' enhance --bins 125 --clip 1.00000012
    sized '131 by 97, --clip off' enhance --clip off
    sized '131 by 97, --clip 1: the film unchanged' enhance --clip 1
    sized '131 by 97, the whole film as a window' window --at 0,0 --size 131x97
    sized '131 by 97, a window from an odd column and row on' window --at 13,7 --size 101x67 --grid 16x3
    sized '131 by 97, its last pixel as a window' window --at 130,96 --size 1x1
    parts cut film.pgm 8 8 odd.pgm
    sized '8 by 8: each side as long as its grid' enhance
    sized '8 by 8, a window' window --at 3,5 --size 4x3
    parts cut film.pgm 17 16 odd.pgm
    sized '17 by 16, --grid 16x16: tiles of one pixel and of two' enhance --grid 16x16
    parts cut film.pgm 5 3 odd.pgm
    sized '5 by 3, --grid 2x2' enhance --grid 2x2 --bins 4
    parts cut film.pgm 4095 2 odd.pgm
    sized '4095 by 2, --grid 2x2: tiles of 2047 and 2048 columns' enhance --grid 2x2
    parts cut film.pgm 2 4093 odd.pgm
    sized '2 by 4093, --grid 2x13' enhance --grid 2x13

    # bytes: the same film and footer, and these the second program's
    parts cut shallow.pgm 100 37 odd.pgm
    sized '100 by 37, 8 bits' enhance
    alike '--bytes, 100 by 37: the same film' odd.pgm enhance --bins 128
    alike '--bytes, 100 by 37: the same window' odd.pgm window --at 51,7 --size 49x29 --bins 64 --clip 1.5
    parts cut shallow.pgm 8 9 odd.pgm
    alike '--bytes, 8 by 9: the same film' odd.pgm enhance --bins 64

    # the listing
    parts cut shallow.pgm 7 9 odd.pgm
    python3 -B "$top/second/listing.py" <odd.pgm >wanted
    "$tz" listing odd.pgm >wrote 2>said
    saw=$?
    if [ "$saw" -eq 0 ] && cmp -s wanted wrote; then ok=yes; else ok=no; fi
    report "$ok" "a listing of 7 by 9: the second program's" "status $saw: $(tail -n 1 wrote | tr '\t' ' ')"
else
    skip 'films of any size against the second program: there is no python3 here'
fi

# the footer says whose limit it is where tiles differ, and nothing more where they do not or none is clipped
{ printf 'P5\n81 80\n255\n'; head -c 6480 /dev/zero; } >wider.pgm
told='limit 1, factor asked 3, factor used 2.5600000000000001 (of tile 0, 0; some tiles are larger)'
try '81 by 80: whose limit it is' 0 enhance wider.pgm "$out"
for words in 'small.pgm' 'wider.pgm --clip off' 'wider.pgm --clip 1'; do
    # shellcheck disable=SC2086
    over enhance $words "$out" 2>said
    saw=$?
    if [ "$saw" -eq 0 ] && grep -q '^limit' said && ! grep -qF 'tile 0, 0' said; then ok=yes; else ok=no; fi
    report "$ok" "$words: one limit or none" "status $saw: $(tail -n 1 said)"
done
