# shellcheck shell=sh disable=SC2154,SC2034
# station/faults.sh reads this: the edition, ours or that of 1986, with its record, and verify of it.

# ---- the words
over enhance film.pgm alone.pgm 2>said
over enhance film.pgm older.pgm --edition 1986 2>said
if [ "$(tail -n 1 said)" = 'limit 9, factor asked 3, factor used 3, edition of 1986' ] && whole older.pgm && ! cmp -s alone.pgm older.pgm; then ok=yes; else ok=no; fi
report "$ok" '--edition 1986: another film, and the footer names it' "$(tail -n 1 said)"
fresh_out '--edition ours: the film without the word' alone.pgm enhance film.pgm "$out" --edition ours
if [ "$(tail -n 1 said)" = 'limit 9, factor asked 3, factor used 3' ]; then ok=yes; else ok=no; fi
report "$ok" '--edition ours: the footer says nothing of it' "$(tail -n 1 said)"
fresh_out '--edition=1986' older.pgm enhance film.pgm "$out" --edition=1986
fresh_out '--edition 1986 -v' older.pgm enhance film.pgm "$out" --edition 1986 -v
words=$(sed -n 's/^512 by .*: --grid/--grid/p' said)
# shellcheck disable=SC2086
fresh_out '--edition 1986 -v: its words give the same film' older.pgm enhance film.pgm "$out" $words
for clip in off 1 1.0; do
    over enhance film.pgm same.pgm --clip "$clip" 2>said
    fresh_out "--edition 1986 --clip $clip: the film of ours" same.pgm enhance film.pgm "$out" --clip "$clip" --edition 1986
    case $(tail -n 1 said) in *', edition of 1986') ok=yes ;; *) ok=no ;; esac
    report "$ok" "--edition 1986 --clip $clip: the footer names it" "$(tail -n 1 said)"
done
for word in 1987 0 1 2 Ours OURS older 86 1986.0 1986x ' 1986' ''; do
    told='--edition takes one of two words, ours or 1986; not understood'
    try "--edition '$word'" 64 enhance film.pgm "$out" --edition "$word"
done
try '--edition twice' 64 enhance film.pgm "$out" --edition 1986 --edition 1986
try '--edition of both kinds' 64 enhance film.pgm "$out" --edition ours --edition=1986
told='a value is missing behind: --edition'
try '--edition without its word' 64 enhance film.pgm "$out" --edition
try '--edition 1987, a window' 64 window film.pgm "$out" --at 0,0 --size 8x8 --edition 1987
for command in info listing verify; do
    told='no such option: --edition'
    try "--edition of $command" 64 "$command" film.pgm --edition 1986
done

# ---- what the library refuses
told='edition ours.'
try '--bytes --edition 1986' 30 enhance shallow.pgm "$out" --bytes --edition 1986
told='The settings were --grid 8x8 --bins 256 --range 0:255 (256 greys) --clip 3 --edition 1986.'
try '--bytes --edition 1986: the settings' 30 enhance shallow.pgm "$out" --bytes --edition 1986
told='Without --bytes the film takes any of them'
try '--bytes --edition 1986, a window: the way out' 30 window shallow.pgm "$out" --bytes --edition 1986 --at 0,0 --size 8x8
try '--bytes --edition 1986 --clip off' 30 enhance shallow.pgm "$out" --bytes --edition 1986 --clip off
try '--bytes --edition 1986 --clip nan' 10 enhance shallow.pgm "$out" --bytes --edition 1986 --clip nan
try '--bytes --edition 1986 --range 0:100 --bins 128' 31 enhance shallow.pgm "$out" --bytes --edition 1986 --range 0:100 --bins 128
over enhance shallow.pgm same.pgm 2>said
fresh_out '--bytes --edition ours: the same film' same.pgm enhance shallow.pgm "$out" --bytes --edition ours
told='--edition 1986.'
try '--edition 1986 --clip 0.5: all settings are told' 10 enhance film.pgm "$out" --edition 1986 --clip 0.5

# ---- the film of RULES 7.2, and films held to the second program
rm -f "$out" odd.json
"$tz" enhance listed.pgm "$out" --grid 2x2 --bins 4 --clip 2 --edition 1986 --record odd.json 2>said
saw=$(od -An -tu1 -j20 -N1 "$out" | tr -d ' ')
if [ "$saw" = 4 ]; then ok=yes; else ok=no; fi
report "$ok" 'the film of RULES 7.2 by 1986: the pixel x 2, y 2' "$saw"
saw="$(field edition odd.json)$(grep -o '"excess": .*' odd.json) $(grep -o '"looks": .*' odd.json)"
if [ "$saw" = '1986 "excess": [2, 0, 2, 0], "looks": [0, 0, 0, 0]' ]; then ok=yes; else ok=no; fi
report "$ok" 'its record: the edition, E as by ours, and no looks' "$saw"
if command -v python3 >/dev/null; then
    parts cut film.pgm 131 97 odd.pgm
    sized '131 by 97 by 1986' enhance --edition 1986
    sized '131 by 97 by 1986, --grid 7x5 --bins 16 --clip 1.2' enhance --edition 1986 --grid 7x5 --bins 16 --clip 1.2
    sized '131 by 97 by 1986, the factor next above 1.0' enhance --edition 1986 --bins 125 --clip 1.00000012
    sized '131 by 97 by 1986, --clip 40' enhance --edition 1986 --bins 64 --clip 40
    sized '131 by 97 by 1986, a window' window --edition 1986 --at 13,7 --size 101x67 --grid 16x3
    sized '131 by 97 by 1986, the whole film as a window' window --edition 1986 --at 0,0 --size 131x97
    parts cut film.pgm 17 16 odd.pgm
    sized '17 by 16 by 1986, tiles of one pixel and of two' enhance --edition 1986 --grid 16x16
    told='(of tile 0, 0; some tiles are larger), edition of 1986'
    try '17 by 16 by 1986: whose limit it is' 0 enhance odd.pgm "$out" --edition 1986
else
    skip 'films by 1986 against the second program: there is no python3 here'
fi
rm -rf editions
"$tz" enhance --into editions --records film.pgm shallow.pgm --edition 1986 2>said
saw=$?
if [ "$saw" -eq 0 ] && cmp -s older.pgm editions/film.pgm && [ "$(field edition editions/film.pgm.json)$(field edition editions/shallow.pgm.json)" = '1986 1986 ' ]; then ok=yes; else ok=no; fi
report "$ok" 'several films by 1986, with records' "status $saw: $(tail -n 1 said)"

# ---- records, verified
lay
for edition in ours 1986; do
    (cd "$place" && "$tz" enhance scan.pgm "$edition.pgm" --record "$edition.json" --edition "$edition" -q)
    (cd "$place" && "$tz" window scan.pgm "$edition-part.pgm" --at 3,5 --size 70x61 --record "$edition-part.json" --edition "$edition" -q)
    held "verify: the edition $edition" 0 '' "$all" "$edition.json"
    held "verify: the edition $edition, a window" 0 '' "$all" "$edition-part.json"
done
edited() { # WHAT WANTED TOLD PRINTED RECORD FROM TO
    sed "s|$6|$7|" "$place/$5" >"$place/edited.json"
    held "$1" "$2" "$3" "$4" edited.json
}
one='    "edition": "ours",'
edited 'verify: a record of 3.7 says no edition: ours' 0 '' "$all" ours.json "$one" ''
edited 'verify: 1986 left out of its record' 76 'rendered again' 'scan=same settings=same rendering=other file=same ' 1986.json '    "edition": "1986",' ''
edited 'verify: ours changed to 1986' 76 'rendered again' 'scan=same settings=same rendering=other file=same ' ours.json '"edition": "ours"' '"edition": "1986"'
edited 'verify: 1986 changed to ours' 76 'rendered again' 'scan=same settings=same rendering=other file=same ' 1986.json '"edition": "1986"' '"edition": "ours"'
cp shallow.pgm "$place/shallow.pgm"
(cd "$place" && "$tz" enhance shallow.pgm eight.pgm --record eight.json --edition 1986 -q)
edited 'verify: 1986, and by bytes' 76 'refused, 30' 'scan=same settings=other rendering=unseen file=same ' eight.json '"by_bytes": false' '"by_bytes": true'
for word in '"1987"' 1986 1 0 null true '"OURS"' '""' '["ours"]' '"ours and 1986 both"'; do
    edited "verify: an edition of $word" 65 'as a record does: edition' '' ours.json '"edition": "ours"' "\"edition\": $word"
done
