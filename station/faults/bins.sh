# shellcheck shell=sh disable=SC2154,SC2034
# station/faults.sh reads this: the bins that are chosen where none are given, and warnings with the words to type instead.
table=$top/station/faults/bins.txt
flat_film() { # WIDTHxHEIGHT: all of grey 257
    printf 'P5\n%s %s\n4095\n' "${1%x*}" "${1#*x}"
    head -c $((2 * ${1%x*} * ${1#*x})) /dev/zero | tr '\0' '\1'
}
bad='' rows=0
while read -r size grid range clip bins; do
    case $size in '#'* | '') continue ;; esac
    rows=$((rows + 1))
    flat_film "$size" >one_grey.pgm
    rm -f "$out"
    "$tz" enhance one_grey.pgm "$out" --grid "$grid" --range "$range" --clip "$clip" 2>said
    saw=$(sed -n 's/^bins \([0-9]*\), chosen.*/\1/p' said)
    [ "$saw" = "$bins" ] || bad="$bad $size,$grid,$range,$clip:$saw"
done <"$table"
if [ -z "$bad" ] && [ "$rows" -gt 30 ]; then ok=yes; else ok=no; fi
report "$ok" 'bins that are chosen: those of the table' "$rows rows, others: ${bad:-none}"
if command -v node >/dev/null; then
    if node "$top/station/faults/bins.mjs" "$table" >said 2>&1; then ok=yes; else ok=no; fi
    report "$ok" 'bins that the reading page chooses: those of the table' "$(head -n 1 said)"
else
    skip 'bins that the reading page chooses: there is no node here'
fi
if command -v python3 >/dev/null; then
    if python3 -B "$top/station/faults/bins.py" "$table" >said 2>&1; then ok=yes; else ok=no; fi
    report "$ok" 'bins by the rule, in fractions: those of the table' "$(head -n 1 said)"
fi

# Warnings. The words that one names are typed behind the same command, and there is no warning then.
warned() { # WHAT TOLD FILM: with the words of `asked`, and then those of `kept` beside the better ones
    what=$1 want=$2
    rm -f "$out"
    # shellcheck disable=SC2086
    "$tz" enhance "$3" "$out" $asked 2>said
    saw=$?
    better=$(sed -n 's/^  to type instead: //p' said)
    rm -f "$out"
    # shellcheck disable=SC2086
    "$tz" enhance "$3" "$out" $kept $better 2>again
    then=$?
    if [ "$saw,$then" = 0,0 ] && grep -qF -- "$want" said && [ -n "$better" ] && ! grep -q '^warning' again; then ok=yes; else ok=no; fi
    report "$ok" "$what" "$better"
}
if command -v python3 >/dev/null; then
    python3 - <<'END'
head, raster = b"P5\n512 384\n4095\n", open("film.pgm", "rb").read()[16:]
greys = [high * 256 + low for high, low in zip(raster[::2], raster[1::2])]
for name, by in (("shifted.pgm", lambda g: 100 + g // 16), ("eight.pgm", lambda g: g // 16 * 16)):
    open(name, "wb").write(head + b"".join(bytes(divmod(by(grey), 256)) for grey in greys))
END
    parts cut film.pgm 128 96 crop.pgm
    asked='' kept=''
    warned 'greys that fill a part of the range' "warning: the film's greys, 128 to 311, fill 184 of the 4096 in the range" shifted.pgm
    asked='--range 0:2000 --bins 700' kept=''
    warned 'the same, with range and bins given' 'warning: 184 greys occur in the film, and there are 700 bins' shifted.pgm
    asked='' kept=''
    warned 'fewer greys than half the bins' 'warning: 184 greys occur in the film, and there are 1024 bins' eight.pgm
    asked='--bins 1024' kept=''
    warned 'a factor that does not hold' 'warning: the factor used is 5.33, and 3 was asked: a tile has 192 pixels and 1024 bins' crop.pgm
    asked='--bins 1024 --clip 1.5' kept='--clip 1.5'
    warned 'a factor that does not hold, a larger film' 'warning: the factor used is 1.33, and 1.5 was asked' film.pgm
    parts cut film.pgm 9 8 crop.pgm
    asked='--clip 2.5' kept='--clip 2.5'
    warned 'a factor that holds with no bins: larger tiles' 'and 2.5 was asked: a tile has 1 pixels' crop.pgm
else
    skip 'warnings: there is no python3 here'
fi
told='warning: the film has one grey alone, 257'
flat_film 64x64 >one_grey.pgm
try 'a film of one grey' 0 enhance one_grey.pgm "$out"
if grep -q 'to type instead' said; then ok=no; else ok=yes; fi
report "$ok" 'a film of one grey: no words' "$(tail -n 1 said)"
for words in 'film.pgm' 'shallow.pgm' 'film.pgm --quiet'; do
    rm -f "$out"
    # shellcheck disable=SC2086
    "$tz" enhance $words "$out" 2>said
    saw=$?
    if [ "$saw" -eq 0 ] && ! grep -q '^warning' said; then ok=yes; else ok=no; fi
    report "$ok" "$words: no warning" "status $saw"
done
rm -f "$out"
"$tz" enhance one_grey.pgm "$out" --quiet 2>said
saw=$?
if [ "$saw" -eq 0 ] && [ ! -s said ]; then ok=yes; else ok=no; fi
report "$ok" '--quiet: no warning' "status $saw"
mkdir -p warn_out
"$tz" enhance --into warn_out one_grey.pgm film.pgm 2>said
if grep -q '^one_grey.pgm: warning: the film has one grey' said && ! grep -q '^film.pgm: warning' said; then ok=yes; else ok=no; fi
report "$ok" 'several films: a warning has its film'"'"'s name' "$(grep -c warning said) warnings"
