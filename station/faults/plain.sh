# shellcheck shell=sh disable=SC2154,SC2034
# station/faults.sh reads this: plain PGM, numbers in text: read by every command but the listing, and moved to raw and back.
moved() { # WHAT WANTED COMMAND IN WORDS..: OUT, which is not there before, is this file
    what=$1 wanted=$2
    shift 2
    rm -f "$out"
    timeout 120 "$tz" "$@" >wrote 2>said
    saw=$?
    if [ "$saw" -eq 0 ] && cmp -s "$wanted" "$out" && no_leftover out && [ -s said ]; then ok=yes; else ok=no; fi
    report "$ok" "$what" "status $saw: $(head -n 1 said | cut -c 1-90)"
}

# ---- both moves
printf 'P5\n3 2\n255\n\0\1\11\12\143\377' >tiny.pgm
printf 'P2\n3 2\n255\n0\n1\n9\n10\n99\n255\n' >text.pgm
moved 'plain: three lines, and then a sample a line' text.pgm plain tiny.pgm "$out"
moved 'raw of it: the raw file again' tiny.pgm raw text.pgm "$out"
moved 'plain of a plain file: the same' text.pgm plain text.pgm "$out"
moved 'raw of a raw file: the same' tiny.pgm raw tiny.pgm "$out"
"$tz" plain film.pgm film.txt 2>said
told='512 by 384 pixels, maxval 4095, plain to raw'
try 'raw of the sample as text' 0 raw film.txt "$out"
if cmp -s film.pgm "$out"; then ok=yes; else ok=no; fi
report "$ok" 'raw of the sample as text: the sample to the byte' "$(wc -c <film.txt) bytes of text"
printf 'P5 03\t2\r\n0255\n\0\1\11\12\143\377' >other.pgm
moved 'raw of a raw file in another form: ours' tiny.pgm raw other.pgm "$out"
printf 'P2\t3\r02 \n00255\r\n000 \r\n\t 00001 09\n\n\n10\t\t99 255' >other.pgm
moved 'raw of a plain file of all white space, no line at its end' tiny.pgm raw other.pgm "$out"
printf 'P2 3 2 255 0 1 9 10 99 255 \t\r\n \n' >other.pgm
moved 'plain of a plain file in one line, white space behind it' text.pgm plain other.pgm "$out"
sed 's/$/\r/' text.pgm >other.pgm
moved 'raw of a plain file with CR LF throughout' tiny.pgm raw other.pgm "$out"
moved 'plain: -o OUT' text.pgm plain -o "$out" tiny.pgm
"$tz" plain - - <tiny.pgm 2>said | "$tz" raw - - 2>>said >wrote
if cmp -s tiny.pgm wrote; then ok=yes; else ok=no; fi
report "$ok" 'plain and raw through pipes' "$(tr '\n' ';' <said)"
{ printf 'P2\n1 1\n1\n1'; } >other.pgm
printf 'P5\n1 1\n1\n\1' >wanted
moved 'raw of one pixel' wanted raw other.pgm "$out"

# ---- the words
told='this command has no such option: --clip'
try 'raw with a setting' 64 raw tiny.pgm "$out" --clip 3
try 'plain with --record' 64 plain tiny.pgm "$out" --record out/film.json
try 'raw with --records' 64 raw tiny.pgm --into out --records
try 'raw: no OUT' 64 raw tiny.pgm
told='several films want --into FOLDER'
try 'plain: a word too many' 64 plain tiny.pgm text.pgm "$out"
told="a PGM, and this name is a PNG's"
try 'raw: OUT is named as a PNG' 64 raw tiny.pgm out/film.png
told='goes with --into'
try 'plain --jobs of one film' 64 plain tiny.pgm "$out" --jobs 2
lay_scans
"$tz" plain --into "$scans/text" "$scans/a.pgm" 2>said
cp "$scans/text/a.pgm" "$scans/c.pgm"
untouched 'raw: OUT is IN, --force' 64 "$of_scan" raw --force c.pgm c.pgm
untouched 'plain: OUT is IN by another name, --force' 64 "$of_scan" plain --force c.pgm ./c.pgm
untouched 'raw: OUT is there' 64 'nothing was written, as what is there already is not replaced' raw c.pgm note.txt
untouched 'plain --into the folder of the scans, --force' 64 "$of_scan" plain --force --into . a.pgm b.pgm c.pgm
untouched 'plain --into: what is there is not replaced, and nothing is begun' 64 'say --force to have' plain --into text b.pgm a.pgm
untouched 'raw --into: a plain file named twice' 64 'two films would have the same name' raw --into ../kept c.pgm c.pgm

# ---- several, both forms mixed
rm -rf mixed moved
mkdir mixed
cp film.pgm mixed/a.pgm
cp film.txt mixed/b.pgm
cp text.pgm mixed/c.PGM
cp tiny.pgm mixed/d.pgm
cp cut.pgm mixed/e.pgm
printf 'P2\n2 1\n9\n7 x' >mixed/f.pgm
"$tz" raw --into moved --jobs 2 mixed 2>said
saw=$?
if [ "$saw" -eq 24 ] && cmp -s film.pgm moved/a.pgm && cmp -s film.pgm moved/b.pgm && cmp -s tiny.pgm moved/c.PGM && cmp -s tiny.pgm moved/d.pgm &&
    [ ! -e moved/e.pgm ] && [ ! -e moved/f.pgm ] && no_leftover moved && grep -qF '2 of 6 films were not written:' said &&
    grep -qF 'mixed/b.pgm: 512 by 384 pixels, maxval 4095, plain to raw' said; then ok=yes; else ok=no; fi
report "$ok" 'raw --into: a folder of both forms, two refused' "status $saw: $(tail -n 1 said)"
rm mixed/e.pgm mixed/f.pgm
printf 'mixed/a.pgm\nmixed/b.pgm\r\n' >mixed/list
"$tz" plain --into moved --force @mixed/list mixed/c.PGM mixed/d.pgm 2>said
saw=$?
if [ "$saw" -eq 0 ] && cmp -s film.txt moved/a.pgm && cmp -s film.txt moved/b.pgm && cmp -s text.pgm moved/c.PGM && cmp -s text.pgm moved/d.pgm &&
    [ "$(tail -n 1 said)" = '4 films written into moved' ]; then ok=yes; else ok=no; fi
report "$ok" 'plain --into: a list and films, --force' "status $saw: $(tail -n 1 said)"

# ---- the other commands
over enhance film.pgm same.pgm 2>said
fresh_out 'enhance of a plain film: the same rendering' same.pgm enhance film.txt "$out"
over window film.pgm part.pgm --at 9,9 --size 60x60 2>said
fresh_out 'window of a plain film: the same' part.pgm window film.txt "$out" --at 9,9 --size 60x60
"$tz" plain shallow.pgm shallow.txt 2>said
over enhance shallow.pgm same.pgm --bytes 2>said
fresh_out '--bytes of a plain film: the same' same.pgm enhance shallow.txt "$out" --bytes
over window shallow.pgm part.pgm --bytes --at 9,9 --size 60x60 2>said
fresh_out '--bytes of a plain film, a window' part.pgm window shallow.txt "$out" --bytes --at 9,9 --size 60x60
told='--bytes takes a film of one byte a sample'
try '--bytes of a plain film of 12 bits' 64 enhance film.txt "$out" --bytes
"$tz" info film.pgm >wanted 2>said
"$tz" info film.txt >wrote 2>said
saw=$?
if [ "$saw" -eq 0 ] && cmp -s wanted wrote; then ok=yes; else ok=no; fi
report "$ok" 'info of a plain film: the same' "status $saw"
mkdir -p "$place"
cp film.txt "$place/text.pgm"
(cd "$place" && "$tz" enhance --force text.pgm text.out --record text.json -q)
if [ "$(field sha256 "$place/text.json")" = "$(digest film.txt) $(digest "$place/text.out") " ]; then ok=yes; else ok=no; fi
report "$ok" 'a record of a plain film: the digest is that of its text' "$(field bytes "$place/text.json")"
held 'verify: a plain film' 0 '' "$all" text.json
(cd "$place" && "$tz" raw --force text.pgm text.raw -q)
held 'verify: the same greys as raw are another scan' 76 'is not the scan of the record' 'scan=other settings=unseen rendering=unseen file=same ' text.json --scan text.raw
told='A raw PGM is made of it by: tzofnadir raw text.pgm NEW.pgm'
try 'a listing of a plain film: the way out' 20 listing text.pgm
"$tz" listing tiny.pgm >wanted 2>said
"$tz" raw text.pgm NEW.pgm --force 2>said
"$tz" listing NEW.pgm >wrote 2>said
if cmp -s wanted wrote; then ok=yes; else ok=no; fi
report "$ok" 'a listing of a plain film: by the way out' "$(head -n 1 wrote | tr '\t' ' ')"

# ---- bad files
bad() { # WHAT WANTED TOLD BYTES: by raw, plain and enhance alike
    # shellcheck disable=SC2059
    printf "$4" >bad.pgm
    for command in raw plain enhance; do
        told=$3
        try "$1, $command" "$2" "$command" bad.pgm "$out"
    done
}
bad 'P2 alone' 20 'behind 0 of its three numbers the header ends' 'P2'
bad 'P2 and a header that breaks off' 20 'It begins with P2, and behind 1 of its three numbers the header breaks off, at byte 5' 'P2\n3 x2\n255\n1 2 3'
bad 'P2 and a header that ends behind maxval' 20 'of this form' 'P2\n3 2\n255'
bad 'P2 and a comment in the header' 21 "Comments are taken out by: sed 's/#.*//' bad.pgm >NEW.pgm" 'P2\n# scan\n3 2\n255\n0 1 9 10 99 255\n'
bad 'P2, 0 by 2' 22 'The header says 0 by 2 pixels' 'P2\n0 2\n255\n'
bad 'P2, 4097 by 1' 22 'The header says 4097 by 1 pixels' 'P2\n4097 1\n255\n1'
bad 'P2, a maxval of 0' 23 'maxvals of 1 to 4095' 'P2\n3 2\n0\n0 0 0 0 0 0'
bad 'P2, a maxval of 4096' 23 'The file'"'"'s maxval is 4096, and its greatest sample 4096' 'P2\n1 1\n4096\n4096\n'
bad 'P2, no samples' 24 'behind it stand 0 samples' 'P2\n3 2\n255\n'
bad 'P2, cut inside a sample' 24 'behind it stand 5 samples' 'P2\n3 2\n255\n0\n1\n9\n10\n9'
bad 'P2, cut behind a sample' 24 'The header says 3 by 2 pixels; behind it stand 5 samples.' 'P2\n3 2\n255\n0\n1\n9\n10\n99\n'
bad 'P2, six digits' 24 'At column 0, row 1, which is byte 17, stands no number of 1 to 5 digits: 100000' 'P2\n3 2\n255\n0 1 9 100000 99 255'
bad 'P2, six digits, five of them zeros' 24 'no number of 1 to 5 digits: 000009' 'P2\n3 2\n255\n0 1 000009 10 99 255'
bad 'P2, a sign' 24 'no number of 1 to 5 digits: -1' 'P2\n3 2\n255\n0 -1 9 10 99 255'
bad 'P2, a plus' 24 'no number of 1 to 5 digits: +1' 'P2\n3 2\n255\n0 +1 9 10 99 255'
bad 'P2, a NUL for white space' 24 'no number of 1 to 5 digits: 0\0001' 'P2\n3 2\n255\n0\0001 9 10 99 255 7'
bad 'P2, a NUL at the end' 24 'no number of 1 to 5 digits: 255\000' 'P2\n3 2\n255\n0 1 9 10 99 255\000'
bad 'P2, VT for white space' 24 'no number of 1 to 5 digits: 0\0131' 'P2\n3 2\n255\n0\0131 9 10 99 255 7'
bad 'P2, FF for white space' 24 'no number of 1 to 5 digits: 0\0141' 'P2\n3 2\n255\n0\0141 9 10 99 255 7'
bad 'P2, a comment among the samples' 24 "Comments are taken out by: sed 's/#.*//' bad.pgm >NEW.pgm" 'P2\n3 2\n255\n0 1 9 # half\n10 99 255'
bad 'P2, a point' 24 'no number of 1 to 5 digits: 1.5' 'P2\n3 2\n255\n0 1.5 9 10 99 255'
bad 'P2, a word of 40 letters' 24 'digits: aaaaaaaaaaaaaaaaaaaa..' 'P2\n3 2\n255\n0 aaaaaaaaaaaaaaaaaaaaaaaaaaaaaaaaaaaaaaaa 9 10 99 255'
bad 'P2, a tail on the last sample' 24 'no number of 1 to 5 digits: 255x' 'P2\n3 2\n255\n0 1 9 10 99 255x'
bad 'P2, a byte behind the last sample' 25 'ends at byte 26, and more than white space follows' 'P2\n3 2\n255\n0 1 9 10 99 255 \n x'
bad 'P2, a sample too many' 25 'The header says 3 by 2 pixels; the last of these 6 samples ends at byte 26' 'P2\n3 2\n255\n0 1 9 10 99 255 7'
bad 'P2, 26 in the last sample' 26 'The first above it is at column 2, row 1: 256; the greatest is 256.' 'P2\n3 2\n255\n0 1 9 10 99 256'
bad 'P2, 26 in the last sample, and a byte behind it' 26 'A sample is above' 'P2\n3 2\n255\n0 1 9 10 99 256 x'
bad 'P2, 99999' 26 'The first above it is at column 0, row 0: 99999' 'P2\n3 2\n255\n99999 1 9 10 99 255'
bad 'P2, 26 before 24' 26 'A sample is above' 'P2\n3 2\n255\n0 256 9 x 99 255'
bad 'P2, 24 before 26' 24 'digits: x' 'P2\n3 2\n255\n0 1 x 256 99 255'

# ---- the way out that a message names
way_out_by() { # WHAT STATUS FILM TEXT-BEFORE-THE-COMMAND
    told=$4
    try "$1" "$2" raw "$3" "$out"
    sed -n "s/.*$4//p" said | head -n 1 >way.sh
    rm -f NEW.pgm
    sh ./way.sh
    try "$1: the way out" 0 raw NEW.pgm "$out"
    if cmp -s "$5" "$out"; then ok=yes; else ok=no; fi
    report "$ok" "$1: its film" "$(head -c 60 way.sh)"
}
printf 'P2 # scan\n3 2 # size\n255\n0 1 9 # first row\n10 99 255\n' >noted.pgm
way_out_by 'P2, comments everywhere' 21 noted.pgm 'are taken out by: ' tiny.pgm
printf 'P2\n3 2\n65535\n0 1 9\n10 99 4000\n' >deep.txt
printf 'P5\n3 2\n4095\n\0\0\0\1\0\11\0\12\0\143\17\240' >wanted
way_out_by 'P2, a maxval of 65535 and samples of 12 bits' 23 deep.txt 'alone does it: ' wanted
printf 'P2\n3 2\n254\n0 1 9\n10 99 255\n' >above.txt
way_out_by 'P2, a sample above maxval' 26 above.txt 'alone does it: ' tiny.pgm
printf 'P2\n3 2\n254\n0 1 255\n10 99\n' >above.txt
told='The first above it'
try 'P2, a sample above maxval and one missing' 26 raw above.txt "$out"
if grep -qF 'alone does it' said; then ok=no; else ok=yes; fi
report "$ok" 'P2, a sample above maxval and one missing: no header helps' "$(tail -n 1 said | cut -c 1-80)"

# ---- the largest, and longer ones
{ printf 'P2\n4096 4096\n4095\n'; yes 4095 | head -n 16777216; } >big.txt
{ printf 'P5\n4096 4096\n4095\n'; yes "$(printf '\17')" | head -c 33554432 | LC_ALL=C tr '\12' '\377'; } >wanted
if [ "$(wc -c <big.txt)" -eq 83886098 ]; then ok=yes; else ok=no; fi
report "$ok" 'the longest plain file that is written: 18 + 5 x 2^24 bytes' "$(wc -c <big.txt)"
moved 'raw of it' wanted raw big.txt "$out"
moved 'plain of that: the same' big.txt plain wanted "$out"
{ printf 'P2\r\n4096 4096\r\n4095\r\n'; yes "$(printf '4095\r')" | head -n 16777216; } >big.txt
moved 'the largest film with CR LF throughout: raw' wanted raw big.txt "$out"
head -c 65515 /dev/zero | tr '\0' ' ' >>big.txt
moved 'the same with white space behind it, 100,728,832 bytes' wanted raw big.txt "$out"
printf '\n' >>big.txt
told='is longer than 100728832 bytes, the largest plain film'
try 'one byte of white space more' 65 raw big.txt "$out"
rm big.txt wanted
endless() { # WANTED WIDTH HEIGHT MAXVAL
    cp before "$out"
    { printf 'P2\n%s %s\n%s\n' "$2" "$3" "$4"; yes 1234; } 2>/dev/null | timeout 120 "$tz" raw --force - "$out" >wrote 2>said
    judge "plain text without end, $2 by $3, maxval $4" "$1" $?
}
endless 22 9999 9999 4095
endless 23 4096 4096 5000
endless 65 4096 4096 4095
cp before "$out"
{ printf 'P2'; tr '\0' ' ' </dev/zero; } 2>/dev/null | timeout 120 "$tz" raw --force - "$out" >wrote 2>said
judge 'P2 and white space without end, through a pipe' 65 $?
cp before "$out"
{ printf 'P2\n#'; tr '\0' ' ' </dev/zero; } 2>/dev/null | timeout 120 "$tz" raw --force - "$out" >wrote 2>said
judge 'P2 and a comment without end, through a pipe' 21 $?
"$tz" plain film.pgm - >/dev/full 2>said
judge 'plain on a full device' 74 $?
cp before "$out"
told='cannot open nowhere.pgm'
try 'raw: no such file' 66 raw nowhere.pgm "$out"

# ---- an archive of 1,000 random plain films, to raw and back, by the program and by Netpbm's
if command -v python3 >/dev/null; then
    python3 -B "$top/station/faults/archive.py" "$tz" archive 1000 >wrote 2>said
    saw=$?
    if [ "$saw" -eq 0 ]; then ok=yes; else ok=no; fi
    report "$ok" 'an archive of 1,000 random plain films, to raw and back' "status $saw: $(tail -n 1 wrote)$(tail -n 1 said)"
    ! grep -q '^no Netpbm' wrote || skip 'the archive by Netpbm: there is no pgmtopgm here'
    rm -rf archive
else
    skip 'an archive of 1,000 random plain films: there is no python3 here'
fi
