# shellcheck shell=sh disable=SC2154,SC2034
# station/faults.sh reads this: records held to their scans and renderings.
place=$room/verify
lay() { # what verify is tried with
    rm -rf "$place"
    mkdir -p "$place/rendered"
    cp film.pgm "$place/scan.pgm"
    (cd "$place" && "$tz" enhance scan.pgm rendered/scan.pgm --record rendered/scan.json --clip 2.3 -q)
}
held() { # WHAT WANTED TOLD PRINTED WORDS..: in the folder, which has to be as it was
    what=$1 wanted=$2 told=$3 printed=$4
    shift 4
    (cd "$place" && find . -type f -exec sha256sum {} + | sort) >was
    (cd "$place" && timeout 120 "$tz" verify "$@") >wrote 2>said
    saw=$?
    (cd "$place" && find . -type f -exec sha256sum {} + | sort) >is
    if [ "$saw" -eq "$wanted" ] && { [ -z "$told" ] || grep -qF -- "$told" said; } && cmp -s was is && [ "$(cut -f 1,2 wrote | tr '\t\n' '= ')" = "$printed" ]; then ok=yes; else ok=no; fi
    told=''
    report "$ok" "$what" "status $saw: $(cut -f 1,2 wrote | tr '\t\n' '= ')$(head -n 1 said | cut -c 1-60)"
}
all='scan=same settings=same rendering=same file=same '
alter() { # FILE FROM TO: in a copy of the record
    sed "s|$2|$3|" "$place/rendered/scan.json" >"$place/rendered/$1"
}
lay
held 'verify: as recorded' 0 '' "$all" rendered/scan.json
(cd "$room" && "$tz" verify verify/rendered/scan.json) >wrote 2>said
saw=$?
if [ "$saw" -eq 66 ] && grep -qF 'its scan is not there: scan.pgm' said; then ok=yes; else ok=no; fi
report "$ok" 'verify: from another folder the scan is not found' "status $saw: $(head -n 1 said)"
cp film.pgm "$place/rendered/scan.pgm.kept"
held 'verify: -q prints nothing' 0 '' '' -q rendered/scan.json
(cd "$place" && "$tz" enhance --force scan.pgm scan.png --record png.json -q && "$tz" window scan.pgm part.pgm --at 3,5 --size 70x61 --clip off --record window.json -q)
held 'verify: a PNG' 0 '' "$all" png.json
held 'verify: a window, clip off' 0 '' "$all" window.json
cp shallow.pgm "$place/bytes.pgm"
(cd "$place" && "$tz" enhance bytes.pgm bytes.out --bytes --bins 64 --record bytes.json -q && "$tz" enhance - - --record streams.json -q <scan.pgm >stream.pgm)
held 'verify: --bytes' 0 '' "$all" bytes.json
held 'verify: standard input has no name' 66 'the scan came from standard input' '' streams.json
held 'verify: standard input, --scan' 0 '' 'scan=same settings=same rendering=same file=missing ' streams.json --scan scan.pgm
held 'verify: --scan of another film' 76 'is not the scan of the record' 'scan=other settings=unseen rendering=unseen file=same ' rendered/scan.json --scan bytes.pgm
held 'verify: --scan that is not there' 66 'cannot open nowhere.pgm' '' rendered/scan.json --scan nowhere.pgm
odd=$(printf 'odd "name"\\ \t\303\266\377.pgm')
cp film.pgm "$place/$odd"
(cd "$place" && "$tz" enhance "$odd" out.pgm --record odd.json -q)
held 'verify: a name of odd bytes' 0 '' "$all" odd.json

# a record and a report of the reading page: names without folders, beside the record; what a record has not is passed over
mkdir "$place/page"
cp film.pgm "$place/page/weld.pgm"
(cd "$place/page" && "$tz" enhance weld.pgm weld-rendered.pgm --record weld-rendered.json -q)
held "verify: the page's record, from elsewhere" 0 '' "$all" page/weld-rendered.json
if command -v python3 >/dev/null; then
    python3 - "$place/page/weld-rendered.json" "$place/page/report.json" <<'END'
import json, sys
record = json.load(open(sys.argv[1]))
report = {"report": {"reader": "J. D\u00f6e \U0001f4dd", "remarks": ["pore", {"input": 1}, None, True, -1.5e3]}, "a/b": "\\ \" \/ \b"}
report.update(reversed(record.items()))
with open(sys.argv[2], "w") as out:
    out.write("\ufeff" + json.dumps(report))
END
    held "verify: a report with a record's members, in one line" 0 '' "$all" page/report.json
fi

# a report as the page makes it, by its own functions, and reports that were changed since
if command -v node >/dev/null; then
    sealed="${all}report=same "
    if node "$top/station/faults/report.mjs" "$place/page/weld.pgm" "$place/page/weld-rendered.json" "$place/page/reading.json" 2>said; then ok=yes; else ok=no; fi
    report "$ok" "a report by the page's own functions" "$(wc -c <"$place/page/reading.json") bytes $(tail -n 1 said)"
    held "verify: the page's report" 0 '' "$sealed" page/reading.json
    changed() { # WHAT SED PRINTED
        sed "$2" "$place/page/reading.json" >"$place/page/changed.json"
        held "verify: the page's report, $1" 76 'the report was changed since it was saved' "$3" page/changed.json
    }
    changed "a mark's sentence changed" 's/a \\"pore/no \\"pore/' "${all}report=other "
    changed 'a measured number changed' 's/"least": [0-9]*/"least": 1/' "${all}report=other "
    changed 'its digest changed' 's/"report_sha256": "./"report_sha256": "z/' "${all}report=other "
    changed 'something behind its digest' 's/^}$/, "more": 1}/' "${all}report=other "
    changed 'a setting changed' 's/"across": 8/"across": 7/' 'scan=same settings=other rendering=other file=same report=other '
else
    skip "verify of a report that the page's own functions make: there is no node here"
fi

# ---- what is not as recorded
alter other.json '"factor": 2.29999995' '"factor": 9'
held 'verify: another factor' 76 'rendered again, the film is not the one of the record' 'scan=same settings=other rendering=other file=same ' rendered/other.json
alter other.json '"limit": [0-9]*' '"limit": 1'
held 'verify: another limit' 76 'rendered again' 'scan=same settings=other rendering=same file=same ' rendered/other.json
alter other.json '"across": 8' '"across": 99'
held 'verify: settings that are refused' 76 'refused, 3' 'scan=same settings=other rendering=unseen file=same ' rendered/other.json
alter other.json '"by_bytes": false' '"by_bytes": true'
held 'verify: by bytes, which this film cannot be' 76 '--bytes takes' 'scan=same settings=other rendering=unseen file=same ' rendered/other.json
alter other.json '"window": null' '"window": {"left": 500, "top": 0, "width": 500, "height": 9}'
held 'verify: a window outside' 76 'refused, 16' 'scan=same settings=other rendering=unseen file=same ' rendered/other.json
rm "$place/rendered/scan.pgm"
held 'verify: the rendering is gone' 0 '' 'scan=same settings=same rendering=same file=missing ' rendered/scan.json
cp before "$place/rendered/scan.pgm"
held 'verify: the rendering was replaced' 76 'rendered/scan.pgm is not the rendering of the record' 'scan=same settings=same rendering=same file=other ' rendered/scan.json
lay
printf '\1' | dd of="$place/scan.pgm" bs=1 seek=4000 conv=notrunc 2>/dev/null
held 'verify: a byte of the scan was altered' 76 'scan.pgm is not the scan of the record' 'scan=other settings=unseen rendering=unseen file=same ' rendered/scan.json
rm "$place/scan.pgm"
held 'verify: the rendering beside the record is not taken for the scan' 66 'its scan is not there: scan.pgm' '' rendered/scan.json
rm "$place/rendered/scan.pgm"
held 'verify: the scan is gone' 66 'its scan is not there: scan.pgm' '' rendered/scan.json

# ---- what is no record
lay
no_record() { # WHAT TOLD TEXT
    # shellcheck disable=SC2059
    printf "$3" >"$place/no.json"
    held "verify: $1" 65 "$2" '' no.json
}
no_record 'an empty file' 'no.json is no record of a rendering: it is no JSON' ''
no_record 'a text' 'it is no JSON' 'hello\n'
no_record 'JSON that is cut' 'it is no JSON' '{"input": {"file": "x'
no_record 'JSON with a tail' 'it is no JSON' '{} {}'
no_record 'a list' 'it does not say, or not as a record does: input' '[1, 2]'
no_record 'an object of another kind' 'as a record does: input' '{"width": 512}'
no_record 'a scan without a digest' 'as a record does: sha256' '{"input": {"file": "x", "sha256": "abc"}}'
no_record 'a scan whose name is a number' 'as a record does: file' '{"input": {"file": 7}}'
no_record 'a name that ends early' 'as a record does: file' '{"input": {"file": "a\\u0000b"}}'
{ head -c 5000 /dev/zero | tr '\0' '['; head -c 5000 /dev/zero | tr '\0' ']'; } >"$place/no.json"
held 'verify: brackets 5,000 deep' 65 'it is no JSON' '' no.json
{ printf '{"input": {"file": "'; head -c 9000 /dev/zero | tr '\0' x; printf '"}}'; } >"$place/no.json"
held 'verify: a name that no system takes' 65 'as a record does: file' '' no.json
held 'verify: a film' 65 'it is no JSON' '' scan.pgm
for key in output settings across bins clip factor limit factor_used maxval; do
    alter no.json "\"$key\"" '"other"'
    (cd "$place" && "$tz" verify rendered/no.json) >wrote 2>said
    saw=$?
    if [ "$saw" -eq 65 ] && grep -qF "as a record does: $key" said && [ ! -s wrote ]; then ok=yes; else ok=no; fi
    report "$ok" "verify: a record without $key" "status $saw: $(head -n 1 said | cut -c 1-80)"
done
held 'verify: no such file' 66 'cannot open nowhere.json' '' nowhere.json
held 'verify: a folder' 66 'cannot read rendered' '' rendered
held 'verify: no name' 64 'a file name is missing' ''
held 'verify: two names' 64 'one word too many' '' rendered/scan.json rendered/scan.json
held 'verify: an option of another command' 64 'no such option' '' rendered/scan.json --force
(cd "$place" && "$tz" verify rendered/scan.json) >/dev/full 2>said
saw=$?
if [ "$saw" -eq 74 ]; then ok=yes; else ok=no; fi
report "$ok" 'verify on a full device' "status $saw: $(head -n 1 said)"
