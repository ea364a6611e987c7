# shellcheck shell=sh disable=SC2154,SC2034,SC2012
# station/faults.sh reads this: station/png.py, for a look at a result.
if command -v python3 >/dev/null; then
    cat >look.py <<'END'
"""Unpacks what png.py made of a film, and holds it to the film's greys."""
import struct, subprocess, sys, zlib
png, film, target = sys.argv[1:]
data = open(film, "rb").read()
greys = struct.unpack(">196608H", data[-393216:])
for bits, top, form in ((8, 255, "%dB"), (16, 65535, ">%dH")):
    subprocess.run([sys.executable, "-B", png, film, target, "--bits", str(bits), "--crop", "7,9,300x200", "--force"], check=True)
    made = open(target, "rb").read()
    assert struct.unpack(">IIB", made[16:25]) == (300, 200, bits)
    packed = made[made.index(b"IDAT") + 4:made.index(b"IEND") - 8]
    rows, step, wide = zlib.decompress(packed), bits // 8, 300 * bits // 8
    for y in range(200):
        row = bytearray(rows[y * (wide + 1) + 1:(y + 1) * (wide + 1)])
        for i in range(step, wide):
            row[i] = (row[i] + row[i - step]) % 256
        wanted = tuple(grey * top // 4095 for grey in greys[(y + 9) * 512 + 7:(y + 9) * 512 + 307])
        assert struct.unpack(form % 300, row) == wanted
END
    python3 -B look.py "$top/station/png.py" film.pgm look.png >wrote 2>said
    saw=$?
    if [ "$saw" -eq 0 ]; then ok=yes; else ok=no; fi
    report "$ok" 'png.py: 8 and 16 bits hold the greys' "status $saw: $(tail -n 1 said)"
    looks() { # WHAT WORDS..: a message, and no picture
        what=$1
        shift
        rm -f look.png
        python3 -B "$top/station/png.py" "$@" >wrote 2>said
        saw=$?
        if [ "$saw" -ne 0 ] && [ -s said ] && [ ! -e look.png ] && ! grep -q Traceback said; then ok=yes; else ok=no; fi
        report "$ok" "$what" "status $saw: $(tail -n 1 said)"
    }
    looks 'png.py: a cut file' short.pgm look.png
    looks 'png.py: no PGM' before look.png
    looks 'png.py: no such file' nowhere.pgm look.png
    looks 'png.py: no such folder' film.pgm nowhere/look.png
    looks 'png.py: a part outside the film' film.pgm look.png --crop 500,0,20x20
    # no scan is overwritten by it either
    rm -rf looked_at
    mkdir looked_at
    left_alone() { # WHAT TOLD WORDS..: in a folder of two scans and a link, which has to be as it was
        what=$1 told=$2
        shift 2
        (cd looked_at && cp -f ../film.pgm a.pgm && cp -f ../little.pgm b.pgm && ln -sf b.pgm link.png && python3 -B "$@") >wrote 2>said
        saw=$?
        if [ "$saw" -eq 64 ] && grep -qF -- "$told" said && cmp -s film.pgm looked_at/a.pgm && cmp -s little.pgm looked_at/b.pgm && [ -L looked_at/link.png ] && [ "$(ls looked_at | wc -l)" -eq 3 ]; then ok=yes; else ok=no; fi
        told=''
        report "$ok" "$what" "status $saw: $(head -n 1 said)"
    }
    left_alone 'png.py: a glob that two films match' 'where this is no scan' "$top/station/png.py" a.pgm b.pgm
    left_alone 'png.py: OUT is IN, --force' "the scan's own place" "$top/station/png.py" a.pgm ./a.pgm --force
    left_alone 'png.py: OUT is a link to IN, --force' "the scan's own place" "$top/station/png.py" b.pgm link.png --force
    left_alone 'png.py: OUT is a link to another scan' 'is there already' "$top/station/png.py" a.pgm link.png
    left_alone 'weld.py: a film is there' 'is there already' "$top/station/weld.py" b.pgm
    (cd looked_at && python3 -B "$top/station/png.py" a.pgm link.png --force) >wrote 2>said
    saw=$?
    if [ "$saw" -eq 0 ] && [ ! -L looked_at/link.png ] && cmp -s little.pgm looked_at/b.pgm; then ok=yes; else ok=no; fi
    report "$ok" 'png.py over a link, --force: the link itself is replaced' "status $saw"
    python3 -B "$top/station/png.py" film.pgm /dev/stdout 2>said | cmp -s - looked_at/link.png
    saw=$?
    if [ "$saw" -eq 0 ]; then ok=yes; else ok=no; fi
    report "$ok" 'png.py to /dev/stdout, a pipe' "cmp $saw"
else
    skip 'png.py: there is no python3 here'
fi
