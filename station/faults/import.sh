# shellcheck shell=sh disable=SC2154,SC2034,SC2012,SC2046,SC2129
# station/faults.sh reads this: station/import, on files that station/faults/scans.py makes.
import=$top/station/import
scan_python=''
for python in python3 /usr/bin/python3; do
    [ -z "$scan_python" ] || continue
    ! "$python" -c 'import numpy, pydicom, tifffile, PIL' 2>/dev/null || scan_python=$python
done
mkdir -p scans imported
[ -z "$scan_python" ] || "$scan_python" -B "$top/station/faults/scans.py" film.pgm scans || scan_python=''

no_parts() { for f in "$1"/.import-*; do [ ! -e "$f" ] || return 1; done; } # FOLDER
imports() { # WHAT WANTED TOLD WORDS..: runs it, and holds status and message; `ok` and `saw` are left for more
    what=$1 wanted=$2 told=$3
    shift 3
    timeout 300 "$import" "$@" >wrote 2>said
    saw=$?
    ok=no
    if [ "$saw" -eq "$wanted" ] && no_parts imported; then
        if [ -z "$told" ] || grep -qF -- "$told" said; then ok=yes; fi
    fi
    told=''
}
told_of() { report "$ok" "$what" "status $saw: $(head -n 1 said | cut -c 1-110)"; }
same() { cmp -s "$1" "$2" || ok=no; } # FILE FILE
clear() { rm -rf imported; mkdir imported; }

# ---- films that come out as they are
kept='kept.pgm deep.pgm left.pgm text.pgm any.pam plain.tif high.tif deflate.tif tiles.tif large.tif twelve.tif lzw.tif white.tif
    lzwwhite.tif sixteen.png scaled.png diconde.dcm older.dcm older-implicit.dcm implicit.dcm bigend.dcm mono1.dcm rle.dcm marks.dcm
    no-mark.dcm j2k.dcm j2k-said.dcm'
kept_films() {
    clear
    # shellcheck disable=SC2086
    imports '27 scans of one film' 0 '27 films of 27 files are in imported' $(printf 'scans/%s ' $kept) --into imported
    told_of
    for name in $kept; do
        ok=yes
        same film.pgm "imported/${name%.*}.pgm"
        [ -s "imported/${name%.*}.json" ] || ok=no
        report "$ok" "$name: the film to the byte" "$(grep -F "/$name: " said | cut -d : -f 3- | cut -c 1-90)"
    done
}
# The fields of the JSON, all in one go.
fields() {
    cat >fields.py <<'END'
import hashlib, json
def of(name):
    return json.load(open("imported/%s.json" % name, encoding="ascii"))
def digest(name):
    return hashlib.sha256(open(name, "rb").read()).hexdigest()
plain, conde, scaled = of("plain"), of("diconde"), of("scaled")
assert plain["source"]["file"] == "scans/plain.tif" and plain["source"]["sha256"] == digest("scans/plain.tif")
assert plain["film"]["file"] == "plain.pgm" and plain["film"]["sha256"] == digest("film.pgm")
assert plain["pixel_spacing"] == {"rows_mm": 0.05, "columns_mm": 0.1, "from": "XResolution, YResolution"}
assert conde["pixel_spacing"] == {"rows_mm": 0.05, "columns_mm": 0.1, "from": "ImagerPixelSpacing"}
assert abs(of("sixteen")["pixel_spacing"]["columns_mm"] - 0.1) < 1e-4
assert conde["rescale"] == {"slope": "2", "intercept": "-7", "type": "US", "table": False}
assert conde["component"] == {"ComponentName": "GIRTH^WELD 7", "ComponentIDNumber": "W-0007",
    "ComponentManufacturer": "Pipeworks", "MaterialThickness": "12.5", "ComponentWelderIDs": ["K1", "K2"]}
older = {"ComponentIDNumber": "W-0008", "MaterialName": "X52", "BodyPartExamined": "ROOT", "ComponentManufacturer": "Pipeworks",
    "MaterialThickness": ["12.5", "14"], "MaterialPropertiesFileID": "steel.xml"}
assert of("older")["component"] == of("older-implicit")["component"] == older
assert plain["component"] is None and plain["rescale"] is None and plain["part"] is None
assert of("mono1")["greys"]["inverted"] == "MONOCHROME1" and of("mono1")["greys"]["top"] == 4095
assert of("white")["greys"]["inverted"] == "MinIsWhite"
assert scaled["greys"]["step"] == 16 and scaled["greys"]["merged"] == 0 and scaled["greys"]["offset"] == 0
assert plain["greys"]["least"] == 450 and plain["greys"]["greatest"] == 3388 and plain["greys"]["occurring"] == 2895
assert of("marks")["notes"] == ["bits above the 12 of a sample are set, and left out"]
print("name, digests, spacing, rescale, component, what was done")
END
    if "$scan_python" fields.py >said 2>&1; then ok=yes; else ok=no; fi
    report "$ok" 'the JSON beside a film' "$(tail -n 1 said)"
}

# ---- greys that do not fit as they are
moved_greys() {
    clear
    imports 'greys that do not fit as they are' 0 '4 films of 4 files' scans/offset.pgm scans/negative.dcm scans/signed12.dcm \
        scans/wide.pgm --into imported
    for line in 'greys 30450 to 33388, each less 30450' 'greys -1550 to 1388, each plus 1550' 'greys -1598 to 1340, each plus 2048' \
        'a step of 14 taken for one grey, 5242 of the 8542 that occur became one with another'; do
        if grep -qF -- "$line" said; then ok=yes; else ok=no; fi
        report "$ok" 'greys that do not fit as they are: what is told' "$line"
    done
    cat >greys.py <<'END'
import sys
def read(name):
    raster = open(name, "rb").read().split(b"\n", 3)[3]
    return [high * 256 + low for high, low in zip(raster[::2], raster[1::2])]
film = read("film.pgm")
deep = read("scans/wide.pgm")
least = min(deep)
assert read("imported/offset.pgm") == [grey - 450 for grey in film]
assert read("imported/negative.pgm") == [grey - 450 for grey in film]
assert read("imported/signed12.pgm") == film
assert read("imported/wide.pgm") == [(grey - least) // 14 for grey in deep]
END
    if "$scan_python" greys.py >said 2>&1; then ok=yes; else ok=no; fi
    report "$ok" 'offsets and steps: each grey' "$(tail -n 1 said)"
    imports '8 bits, as PNG and as TIFF, LZW, MinIsWhite' 0 '4 films of 4 files' scans/bytes.png scans/eight.tif scans/lzw8.tif \
        scans/lzwwhite8.tif --into imported
    for name in bytes eight lzw8 lzwwhite8; do same imported/bytes.pgm "imported/$name.pgm"; done
    [ "$(sed -n 3p imported/bytes.pgm | head -c 3)" = 255 ] || ok=no
    told_of
}

# ---- several frames
several_frames() {
    clear
    imports 'frames of a DICOM, pages of a TIFF, PGM behind PGM' 0 '8 films of 3 files' scans/frames.dcm scans/pages.tif \
        scans/two.pgm --into imported
    for number in 1 2 3; do
        { printf 'P5\n512 96\n4095\n'; raster | tail -c +$((98304 * (number - 1) + 1)) | head -c 98304; } >wanted
        same wanted "imported/frames-frame$number.pgm"
        same wanted "imported/pages-frame$number.pgm"
        [ "$number" -eq 3 ] || same wanted "imported/two-frame$number.pgm"
    done
    told_of
}

# ---- refused, each with a sentence and a way out
refused_file() { # FILE TOLD
    if [ "$(grep -A 1 -F "scans/$1: " refusals | wc -l)" -eq 2 ] && grep -F "scans/$1: " refusals | grep -qF -- "$2" &&
        grep -A 1 -F "scans/$1: " refusals | tail -n 1 | grep -q '^  [A-Z-]'; then ok=yes; else ok=no; fi
    report "$ok" "$1" "$(grep -F "scans/$1: " refusals | cut -d : -f 3- | cut -c 1-90)"
}
refused_files() {
    clear
    : >refusals
    for end in dcm tif png pgm; do
        imports "files of .$end that are refused, and one that is good" 65 'files were not imported' scans/bad-*."$end" \
            scans/kept.pgm --into imported
        [ "$(cd imported && echo *)" = 'kept.json kept.pgm' ] || ok=no
        same film.pgm imported/kept.pgm
        cat said >>refusals
        told_of
    done
    imports 'files of other kinds that are refused' 65 '3 of 3 files were not imported' scans/bad-alpha.pam scans/bad-photo.jpg \
        scans/bad-colour.ppm --into imported
    cat said >>refusals
    told_of
    refused_file bad-rgb.dcm 'it is not grey: 3 samples a pixel, RGB'
    refused_file bad-lossy.dcm 'its greys were altered by packing'
    refused_file bad-jpeg.dcm 'its greys were altered by packing (1.2.840.10008.1.2.4.50)'
    refused_file bad-unsaid.dcm 'its greys may have been altered by packing (1.2.840.10008.1.2.4.91)'
    refused_file bad-packed.dcm 'which cannot be unpacked here'
    refused_file bad-report.dcm 'has no picture of whole numbers'
    refused_file bad-deep.dcm '32 of 32 bits a sample'
    refused_file bad-rgb.tif 'it is not grey'
    refused_file bad-palette.tif 'it is not grey'
    refused_file bad-float.tif 'its samples are floats of 32 bits'
    refused_file bad-deep.tif 'its samples are numbers of 32 bits'
    refused_file bad-jpeg.tif 'it is packed by JPEG'
    refused_file bad-empty.tif 'it is empty'
    refused_file bad-palette.png 'it has a palette'
    refused_file bad-rgb.png 'it is in colour (RGB)'
    refused_file bad-alpha.png 'it has transparency beside its greys'
    refused_file bad-bits.png 'it has 1 bits a sample'
    refused_file bad-text.png 'it is no file that is known here'
    refused_file bad-alpha.pam 'it has 2 samples a pixel (GRAYSCALE_ALPHA)'
    refused_file bad-photo.jpg 'it is a JPEG'
    refused_file bad-colour.ppm 'it is a PPM, in colour'
    refused_file bad-long.pgm 'it is 9000 by 300 pixels, and 4096 a side are the most'
    clear
    imports 'no such file, a folder, and one that is good' 66 '2 of 3 files were not imported' scans/none.tif scans scans/kept.pgm \
        --into imported
    same film.pgm imported/kept.pgm
    told_of
}
# A file that ends too early is refused; where no sample is behind its last byte, the films are those of the whole file.
cut_files() {
    clear
    rm -rf cut_films
    "$import" scans/plain.tif scans/pages.tif scans/deflate.tif scans/diconde.dcm scans/frames.dcm scans/rle.dcm scans/sixteen.png \
        scans/kept.pgm scans/any.pam --into imported 2>said
    "$import" scans/cut-* --into cut_films 2>said
    saw=$?
    count=$(ls scans/cut-* | wc -l) bad='' passed=0
    for file in scans/cut-*; do
        base=${file##*/}
        [ "$(grep -A 1 -F "$file: it is cut off" said | wc -l)" -eq 2 ] || [ -e "cut_films/${base%.*}.pgm" ] ||
            [ -e "cut_films/${base%.*}-frame1.pgm" ] || bad="$bad $base"
    done
    for film in cut_films/*.pgm; do
        name=${film##*/cut-}
        cmp -s "$film" "imported/${name%-last*}${name#*-last}" || bad="$bad $film"
        passed=$((passed + 1))
    done
    if [ -z "$bad" ] && [ "$saw" -eq 65 ] && [ "$count" -gt 60 ]; then ok=yes; else ok=no; fi
    report "$ok" 'files cut off: refused, or whole all the same' "$count files, wrong: ${bad:-none}; $passed films are whole"
}

# ---- where films are put
places() {
    clear
    printf 'mine\n' >imported/kept.pgm
    imports 'a film that is there and differs' 73 'where this is no scan, say --force to have it replaced' scans/kept.pgm --into imported
    [ "$(cat imported/kept.pgm)" = mine ] && [ ! -e imported/kept.json ] || ok=no
    told_of
    imports 'the same with --force' 0 '1 films of 1 files' scans/kept.pgm --into imported --force
    same film.pgm imported/kept.pgm
    told_of
    touch -d '2020-01-01' imported/kept.pgm
    imports 'the same again: there already' 0 'there already' scans/kept.pgm --into imported
    [ "$(date -r imported/kept.pgm +%Y)" = 2020 ] || ok=no
    told_of
    rm imported/kept.pgm
    imports 'its JSON alone is there, as a run that was stopped leaves it' 0 '1 films of 1 files' scans/kept.pgm --into imported
    same film.pgm imported/kept.pgm
    told_of
    clear
    cp before other
    ln -s ../other imported/kept.pgm
    imports 'a link in the place of a film' 73 'is there already' scans/kept.pgm --into imported
    same before other
    told_of
    imports 'a link in the place of a film, --force: the link goes' 0 '1 films' scans/kept.pgm --into imported --force
    same before other
    same film.pgm imported/kept.pgm
    [ ! -L imported/kept.pgm ] || ok=no
    told_of
    ln -sf nowhere imported/kept.json
    imports 'a link to nothing in the place of its JSON' 73 'is there already' scans/kept.pgm --into imported
    told_of
    clear
    cp scans/deep.pgm imported/deep.pgm
    imports 'a scan is never replaced' 64 'is a scan of this call' imported/deep.pgm --into imported --force
    same scans/deep.pgm imported/deep.pgm
    told_of
    cp scans/deep.pgm deep_before
    ln -s ../scans/deep.pgm imported/kept.pgm
    imports 'nor through a link' 64 'is a scan of this call' scans/kept.pgm scans/deep.pgm --into imported --force
    same deep_before scans/deep.pgm
    told_of
    clear
    mkdir imported/kept.pgm
    imports 'a folder in the place of a film' 73 'is a folder' scans/kept.pgm --into imported --force
    told_of
    clear
    mkdir twice
    cp scans/deep.pgm twice/kept.dcm
    imports 'two scans of one name' 64 'two films would have one name' scans/kept.pgm twice/kept.dcm --into imported
    [ "$(ls -A imported)" = '' ] || ok=no
    told_of
    imports '--into a file' 73 'the folder cannot be used' scans/kept.pgm --into film.pgm
    told_of
    imports '--into a folder that is not there' 0 '1 films' scans/kept.pgm --into imported/new/deep
    same film.pgm imported/new/deep/kept.pgm
    told_of
    if [ "$(id -u)" -eq 0 ] && $drop true 2>/dev/null && $drop test -r "$import"; then
        rm -rf letters
        mkdir -m 733 letters
        $drop "$import" scans/kept.pgm scans/deep.pgm --into letters >wrote 2>said
        saw=$? what='a folder that may be written to and not read: told once' ok=yes
        [ "$saw" -eq 0 ] && [ "$(grep -c 'cannot flush the folder letters' said)" -eq 1 ] || ok=no
        same film.pgm letters/kept.pgm
        told_of
    else
        skip 'an import into a folder that may not be read: only root can try it, where others may read the clone'
    fi
    odd=$(printf 'odd \t"name"\377')
    cp film.pgm "$odd.pgm"
    imports 'a name of odd bytes' 0 'odd \t"name"\udcff.pgm: PGM of 512 by 384' --into imported -- "$odd.pgm"
    same film.pgm "imported/$odd.pgm"
    told_of
}
import_words() {
    imports 'no --into' 64 '--into FOLDER is missing' scans/kept.pgm
    told_of
    imports 'no file' 64 'a file is missing' --into imported
    told_of
    imports 'an unknown option' 64 'there is no such option: --colour' scans/kept.pgm --into imported --colour
    told_of
    imports 'a name that begins with a dash: told about --' 64 "stands behind '--', or as ./-film=1.dcm" -film=1.dcm --into imported
    told_of
    imports '--force with a value' 64 'this option takes no value: --force=yes' scans/kept.pgm --into imported --force=yes
    told_of
    imports '--overlap 9999' 64 '--overlap takes a number' scans/kept.pgm --into imported --overlap 9999
    told_of
    imports 'standard input' 64 'standard input has no name' - --into imported
    told_of
    clear
    imports '--quiet' 0 '' scans/kept.pgm --into imported --quiet
    [ ! -s said ] || ok=no
    told_of
    prints 'station/import --help' 'station/import FILE .. --into FOLDER' "$import" --help
}

# ---- a film that is too large
cut_film() {
    clear
    imports '--cut: 9000 by 300' 0 '3 films of 1 files' scans/bad-long.pgm --into imported --cut
    cat >cuts.py <<'END'
import json
whole = open("scans/bad-long.pgm", "rb").read()[-2 * 9000 * 300:]
end = 0
for left in (0, 2914, 5829):
    name = "imported/bad-long-x%d-y0" % left
    part = json.load(open(name + ".json"))["part"]
    data = open(name + ".pgm", "rb").read()
    head = b"P5\n%d 300\n4095\n" % part["width"]
    assert data.startswith(head) and part["left"] == left and part["width"] <= 4096
    assert left == 0 or end - left >= 256, (left, end)
    rows = [whole[2 * (9000 * y + left):2 * (9000 * y + left + part["width"])] for y in range(300)]
    assert data[len(head):] == b"".join(rows)
    end = left + part["width"]
assert end == 9000
END
    "$scan_python" cuts.py >>said 2>&1 || ok=no
    told_of
}

# ---- a full disk, kills, and another run
full_disk() {
    mkdir small
    if [ "$(id -u)" -eq 0 ] && mount -t tmpfs -o size=1m tmpfs "$room/small" 2>/dev/null; then
        disk=$room/small
        imports 'a full disk in the middle' 74 'Make room there and run the same words again' scans/kept.pgm scans/deep.pgm scans/left.pgm \
            scans/text.pgm --into small
        grep -q 'files behind it were not begun' said || ok=no
        same film.pgm small/kept.pgm
        same film.pgm small/deep.pgm
        [ ! -e small/left.pgm ] && [ ! -e small/left.json ] && no_parts small || ok=no
        told_of
        mount -o remount,size=4m "$room/small"
        imports 'a full disk in the middle: run again with room' 0 '4 films of 4 files' scans/kept.pgm scans/deep.pgm scans/left.pgm \
            scans/text.pgm --into small
        for name in kept deep left text; do same film.pgm "small/$name.pgm"; done
        told_of
        umount "$disk" && disk=''
    else
        skip 'an import onto a full disk: no file system can be mounted here'
    fi
}
# A flush that fails is told: of the film, which then is not there, and of its folder, where the film is whole.
flush_of_import() {
    if ! command -v strace >/dev/null || ! strace -f -o trace -e trace=fsync true 2>/dev/null; then
        skip 'an import whose flush fails: there is no strace here, or it may not be used'
        return
    fi
    for which in 1 3; do
        clear
        strace -f -o trace -e trace=fsync -e "inject=fsync:error=EIO:when=$which" "$import" scans/kept.pgm --into imported >wrote 2>said
        saw=$? ok=yes what="an import whose flush fails, number $which"
        [ "$saw" -eq 74 ] && grep -q 'cannot be written into imported: Input/output error' said && no_parts imported || ok=no
        [ "$(ls imported)" = '' ] || same film.pgm imported/kept.pgm
        [ "$which" -ne 3 ] || [ -s imported/kept.json ] || ok=no
        told_of
        imports "$what: the same words again" 0 '1 films of 1 files' scans/kept.pgm --into imported
        same film.pgm imported/kept.pgm
        told_of
    done
}
# Forty scans of five kinds; the run is killed when some files are there, and run again with the same words. A shell has what
# it starts in the background ignore INT; env undoes it.
killed_import() { # SIGNAL FILES
    rm -rf imported
    ${heard:-} "$import" many/* --into imported >wrote 2>said &
    child=$!
    waited=0
    while [ "$(ls imported 2>/dev/null | wc -l)" -lt "$2" ] && kill -0 "$child" 2>/dev/null && [ "$waited" -lt 4000 ]; do
        waited=$((waited + 1))
        sleep 0.01
    done
    kill -s "$1" "$child" 2>/dev/null
    wait "$child" 2>/dev/null
    saw=$?
    there=$(ls imported/*.pgm 2>/dev/null | wc -l) ok=yes
    for film in imported/*.pgm; do
        [ ! -e "$film" ] || { same film.pgm "$film"; [ -s "${film%.pgm}.json" ] || ok=no; }
    done
    [ "$1" = KILL ] || no_parts imported || ok=no
    first=$ok
    imports "an import killed by $1, and run again" 0 '40 films of 40 files' many/* --into imported
    [ "$first" = yes ] || ok=no
    [ "$(ls imported | wc -l)" -eq 80 ] && no_parts imported || ok=no
    for film in imported/*.pgm; do same film.pgm "$film"; done
    report "$ok" "$what" "$there films were there, then all"
}
kills_of_import() {
    mkdir many
    number=0
    while [ "$number" -lt 8 ]; do
        number=$((number + 1))
        cp scans/diconde.dcm "many/a$number.dcm"
        cp scans/plain.tif "many/b$number.tif"
        cp scans/sixteen.png "many/c$number.png"
        cp scans/deep.pgm "many/d$number.pgm"
        cp scans/any.pam "many/e$number.pam"
    done
    killed_import TERM 9
    heard='env --default-signal=INT'
    $heard true 2>/dev/null || heard=''
    if [ -n "$heard" ]; then killed_import INT 30; else skip 'an import killed by INT: this env does not set signals back'; fi
    heard=''
    killed_import KILL 21
    killed_import KILL 50
}

# ---- no packages
no_packages() {
    "$scan_python" -S -B "$top/station/imports/main.py" scans/kept.pgm --into imported >wrote 2>said
    saw=$?
    if [ "$saw" -eq 69 ] && grep -q 'apt install python3-numpy' said; then ok=yes; else ok=no; fi
    report "$ok" 'a package is missing: its Debian name' "status $saw: $(tail -n 2 said | head -n 1)"
}

# ---- the line of lacking fusion stands out alike, however the film came: within 2 % of the film that was never elsewhere
as_clear() {
    clear
    "$import" scans/kept.pgm scans/plain.tif scans/sixteen.png scans/scaled.png scans/diconde.dcm --into imported 2>said
    rm -rf seen
    mkdir seen
    "$tz" enhance --into seen imported/kept.pgm imported/plain.pgm imported/sixteen.pgm imported/scaled.pgm imported/diconde.pgm 2>>said
    "$tz" enhance film.pgm seen/itself.pgm 2>>said
    "$scan_python" -B "$top/station/contrast.py" seen/itself.pgm seen/kept.pgm seen/plain.pgm seen/sixteen.pgm seen/scaled.pgm \
        seen/diconde.pgm >measured 2>>said
    ok=$(awk -F '\t' 'NR == 1 { over = $3 } $3 < 0.98 * over || $3 > 1.02 * over { bad = 1 }
        END { print (NR == 6 && over > 4 && !bad) ? "yes" : "no" }' measured)
    report "$ok" 'contrast over noise: PGM, TIFF, PNG, DICONDE within 2 %' "$(cut -f 3 measured | tr '\n' ' ')"
}

if [ -n "$scan_python" ]; then
    kept_films
    fields
    moved_greys
    several_frames
    refused_files
    cut_files
    places
    import_words
    cut_film
    full_disk
    flush_of_import
    kills_of_import
    no_packages
    as_clear
else
    skip 'station/import: python3-numpy, python3-pydicom, python3-tifffile or python3-pil (Debian) is missing here'
fi
