# shellcheck shell=sh disable=SC2154,SC2034
# station/faults.sh reads this: the record of a rendering.
record=$room/out/film.json
digest() { sha256sum "$1" | cut -c 1-64; } # FILE
field() { sed -n "s/^ *\"$1\": \"\{0,1\}\([^\",]*\)\"\{0,1\},\{0,1\}\$/\1/p" "$2" | tr '\n' ' '; } # NAME RECORD

rm -f "$out" "$record"
"$tz" enhance film.pgm "$out" --record "$record" 2>said
saw=$?
want="$(digest film.pgm) $(digest "$out") "
if [ "$saw" -eq 0 ] && whole "$out" && [ "$(field sha256 "$record")" = "$want" ]; then ok=yes; else ok=no; fi
report "$ok" 'a record: both digests are those of sha256sum' "status $saw"
saw="$(field version "$record")$(field across "$record")$(field bins "$record")$(field min "$record")$(field max "$record")$(field factor "$record")$(field limit "$record")$(field factor_asked "$record")$(field factor_used "$record")$(field width "$record")$(field maxval "$record")"
if [ "$saw" = "$(cat "$top/VERSION") 8 1024 0 4095 3 9 3 3 512 512 4095 4095 " ]; then ok=yes; else ok=no; fi
report "$ok" 'a record: version, settings as used, limit and factors' "$saw"

# What a record lists of the tiles: of the film of document 01's listing, E and looks are those of the listing.
printf 'P5\n4 4\n15\n\0\0\0\4\0\0\10\14\17\17\0\0\17\17\17\17' >listed.pgm
rm -f "$out" "$record"
"$tz" enhance listed.pgm "$out" --grid 2x2 --bins 4 --clip 2 --record "$record" 2>said
"$tz" listing listed.pgm >rows 2>said
saw="$(grep -o '"excess": .*' "$record") $(grep -o '"looks": .*' "$record")"
want="\"excess\": [$(tail -n +2 rows | cut -f 3 | paste -sd, | sed 's/,/, /g')], \"looks\": [$(tail -n +2 rows | cut -f 4 | paste -sd, | sed 's/,/, /g')]"
if [ "$saw" = "$want" ] && [ "$saw" = '"excess": [2, 0, 2, 0], "looks": [3, 0, 2, 0]' ]; then ok=yes; else ok=no; fi
report "$ok" "a record: each tile's E and looks are the listing's" "$saw"
for words in '--clip 1.0' '--clip off' '--bytes --clip 2'; do
    rm -f "$out" "$record"
    # shellcheck disable=SC2086
    case $words in
    --bytes*) "$tz" enhance shallow.pgm "$out" $words --record "$record" 2>said ;;
    *) "$tz" enhance listed.pgm "$out" --grid 2x2 --bins 4 $words --record "$record" 2>said ;;
    esac
    case "$words,$(grep -o '"looks": .*' "$record" | cut -c 1-24)" in
    '--clip 1.0,"looks": []' | '--clip off,"looks": [0, 0, 0, 0]' | '--bytes --clip 2,"looks": ['[0-9]*) ok=yes ;;
    *) ok=no ;;
    esac
    report "$ok" "a record: looks with $words" "$(grep -o '"looks": .*' "$record" | cut -c 1-40)"
done

# The digest over each way in which a text can end in its last block of 64 bytes.
bad=''
for length in 1 2 3 9 10 11 55 56 57 63 64 65 119 120; do
    { printf 'P5'; head -c "$length" /dev/zero | tr '\0' ' '; printf '2 2\n255\nabcd'; } >small.pgm
    over enhance small.pgm "$out" --grid 2x2 --record "$record" 2>said
    [ "$(field sha256 "$record")" = "$(digest small.pgm) $(digest "$out") " ] || bad="$bad $length"
done
if [ -z "$bad" ]; then ok=yes; else ok=no; fi
report "$ok" 'a record: digests of 14 lengths' "wrong: ${bad:-none}"

# Names that JSON cannot hold as they are, and standard input and output.
odd=$(printf 'odd "name"\\ \t\303\266\377.pgm')
cp film.pgm "$odd"
over enhance "$odd" - --record "$record" --clip off <film.pgm >wrote 2>said
saw=$?
ok=no
if command -v python3 >/dev/null; then
    ! python3 - "$record" "$odd" wrote <<'END' || ok=yes
import hashlib, json, os, sys
record = json.load(open(sys.argv[1], encoding="utf-8"))
out = open(sys.argv[3], "rb").read()
assert os.fsencode(record["input"]["file"]) == os.fsencode(sys.argv[2])
assert record["output"]["file"] == "-" and record["output"]["sha256"] == hashlib.sha256(out).hexdigest()
assert record["output"]["bytes"] == len(out)
assert record["settings"]["clip"] is False and record["settings"]["factor"] is None and record["limit"] == 0
END
    [ "$saw" -eq 0 ] || ok=no
    report "$ok" 'a record: a name of odd bytes, standard output, clip off' "status $saw"
else
    skip 'a record of a name of odd bytes: there is no python3 here'
fi
over window film.pgm "$out" --at 10,20 --size 30x40 --record "$record" --bins 0 2>said
saw=$?
if [ "$saw,$(field bins "$record")$(field width "$record")" = '0,128 512 30 ' ] &&
    grep -qF '"window": {"left": 10, "top": 20, "width": 30, "height": 40}' "$record"; then ok=yes; else ok=no; fi
report "$ok" 'a record of a window; bins 0 stand as 128' "status $saw"
rm -f "$record"

# Records that cannot be, and films that fail: neither is left without the other.
pair() { # WHAT WANTED WORDS..: OUT and record have to be as they were
    what=$1 wanted=$2
    shift 2
    cp before "$out"
    cp before "$record"
    over "$@" >wrote 2>said
    saw=$?
    if [ "$saw" -eq "$wanted" ] && cmp -s before "$out" && cmp -s before "$record" && no_leftover out && [ -s said ]; then
        ok=yes
    else
        ok=no
    fi
    report "$ok" "$what" "status $saw: $(head -n 1 said | cut -c 1-90)"
}
pair 'a record in no folder: the film is as it was' 73 enhance film.pgm "$out" --record nowhere/film.json
pair 'a record that is a folder' 73 enhance film.pgm "$out" --record out
pair 'a record on a full device: the film is as it was' 74 enhance film.pgm "$out" --record /dev/full
pair 'a film in no folder: the record is as it was' 73 enhance film.pgm nowhere/film.pgm --record "$record"
pair 'a refused film: the record is as it was' 13 enhance film.pgm "$out" --range 0:9 --record "$record"
pair 'a record in the place of OUT' 64 enhance film.pgm "$out" --record "$out"
pair 'a record in the place of OUT by another name' 64 enhance film.pgm "$out" --record out/../out/film.pgm
pair 'a record in the place of IN' 64 enhance film.pgm "$out" --record ./film.pgm
pair 'record and film both to standard output' 64 enhance film.pgm - --record -
pair 'a record to /dev/stdout beside the film' 64 enhance film.pgm - --record /dev/stdout
pair 'a film to /dev/stdout beside the record' 64 enhance film.pgm /dev/stdout --record -
over enhance film.pgm - --record /dev/stdout 2>said | cat >wrote
if [ ! -s wrote ] && grep -q "the record would take the rendering's place" said; then ok=yes; else ok=no; fi
report "$ok" 'a record to /dev/stdout beside the film, a pipe' "$(head -n 1 said)"
over enhance film.pgm - --record "$record" >/dev/full 2>said
saw=$?
if [ "$saw" -eq 74 ] && cmp -s before "$record" && no_leftover out; then ok=yes; else ok=no; fi
report "$ok" 'standard output on a full device: the old record stays' "status $saw: $(head -n 1 said)"
rm -f "$record"
"$tz" enhance film.pgm /dev/full --record "$record" 2>said
saw=$?
if [ "$saw" -eq 74 ] && [ ! -e "$record" ] && no_leftover out; then ok=yes; else ok=no; fi
report "$ok" 'a film on a full device: its record is gone again' "status $saw: $(head -n 1 said)"
"$tz" enhance film.pgm new.pgm --record ./new.pgm 2>said
saw=$?
if [ "$saw" -eq 64 ] && [ ! -e new.pgm ]; then ok=yes; else ok=no; fi
report "$ok" 'a record in the place of OUT, which is not there yet' "status $saw"
# A folder in which only a file's owner may give its name to another.
if [ "$(id -u)" -eq 0 ] && $drop true 2>/dev/null; then
    mkdir -m 1777 sticky
    cp before sticky/film.pgm
    chmod 666 sticky/film.pgm
    $drop "$tz" enhance --force film.pgm sticky/film.pgm --record sticky/film.json 2>said
    saw=$?
    if [ "$saw" -eq 73 ] && cmp -s before sticky/film.pgm && [ ! -e sticky/film.json ] && no_leftover sticky; then ok=yes; else ok=no; fi
    report "$ok" "another's film in a shared folder: no record is left" "status $saw: $(head -n 1 said)"
else
    skip "another's film in a shared folder: only root can try it"
fi
