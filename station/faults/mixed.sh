# shellcheck shell=sh disable=SC2154,SC2034,SC2012,SC2010
# station/faults.sh reads this: a folder of 200 scans of ten kinds, imported and rendered with --jobs 2 in one go, stopped while
# it imports and while it renders, and run again with the same words. station/faults/mixed.py makes the scans, and holds what
# is there to them.
mixed=$room/mixed
mixed_look() { "$scan_python" -B "$top/station/faults/mixed.py" look mixed/scans mixed/wanted mixed/films mixed/rendered; }
mixed_scans() { (cd mixed/scans && sha256sum -- *); }
# Ends all its processes in one moment, as a machine that is switched off does, when a folder holds so many files.
go_and_kill() { # SIGNAL FOLDER FILES
    setsid sh mixed/go >wrote 2>said &
    child=$!
    waited=0
    while [ "$(ls "mixed/$2" 2>/dev/null | wc -l)" -lt "$3" ] && kill -0 "$child" 2>/dev/null && [ "$waited" -lt 12000 ]; do
        waited=$((waited + 1))
        sleep 0.01
    done
    kill -s "$1" -- "-$child" 2>/dev/null
    wait "$child" 2>/dev/null
    saw=$?
    sleep 0.2
}
stopped() { # WHAT SIGNAL STATUS FOLDER FILES
    go_and_kill "$2" "$4" "$5"
    ok=yes
    mixed_look >looked 2>&1 || ok=no
    there=$(ls "mixed/$4" | grep -c 'pgm$')
    [ "$saw" -eq "$3" ] && [ "$there" -gt 0 ] && [ "$there" -lt 200 ] || ok=no
    mixed_scans | cmp -s - mixed_were || ok=no
    report "$ok" "$1" "status $saw: $(tail -n 1 looked)"
}
run_again() {
    timeout 300 sh mixed/go >wrote 2>said
    saw=$?
    ok=yes
    mixed_look >looked 2>&1 || ok=no
    grep -qF '200 films, 200 renderings, wrong: none' looked && [ "$saw" -eq 0 ] || ok=no
    [ "$(ls -A mixed/films | wc -l),$(ls -A mixed/rendered | wc -l)" = 400,400 ] || ok=no
    mixed_scans | cmp -s - mixed_were || ok=no
    report "$ok" 'the same words again: all there, each of its own scan' "status $saw: $(tail -n 1 looked)"
    other=0
    for file in mixed/rendered/*.json; do "$tz" verify -q "$file" >>wrote 2>&1 || other=$((other + 1)); done
    if [ "$other" -eq 0 ]; then ok=yes; else ok=no; fi
    report "$ok" 'each of the 200 records holds' "$other do not"
}
mixed_kinds() {
    mkdir "$mixed" mixed/scans mixed/wanted
    "$scan_python" -B "$top/station/faults/mixed.py" make film.pgm mixed/scans mixed/wanted 2>said
    cat >mixed/go <<END
'$import' mixed/scans/* --into mixed/films --quiet &&
    '$tz' enhance --force --into mixed/rendered --records --jobs 2 mixed/films
END
    mixed_scans >mixed_were
    if [ "$(wc -l <mixed_were)" -eq 200 ]; then ok=yes; else ok=no; fi
    report "$ok" '200 scans of ten kinds' "$(wc -l <mixed_were) made"
    stopped 'imported and rendered in one go, ended by TERM on the way in' TERM 143 films 120
    stopped 'the same words again, ended by KILL on the way in' KILL 137 films 250
    stopped 'the same words again, ended by KILL while it renders' KILL 137 rendered 130
    run_again
}
if [ -z "$scan_python" ]; then
    skip '200 scans of ten kinds: python3-numpy, python3-pydicom, python3-tifffile or python3-pil (Debian) is missing here'
elif ! command -v setsid >/dev/null; then
    skip '200 scans of ten kinds: there is no setsid (util-linux) here'
else
    mixed_kinds
fi
