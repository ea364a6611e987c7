# shellcheck shell=sh disable=SC2154,SC2034
# station/faults.sh reads this: help, version, --quiet, --option=value, --, several films, progress.
prints() { # WHAT TOLD WORDS..: status 0, TOLD on standard output, nothing on standard error
    what=$1 told=$2
    shift 2
    "$@" >wrote 2>said
    saw=$?
    if [ "$saw" -eq 0 ] && grep -qF -- "$told" wrote && [ ! -s said ]; then ok=yes; else ok=no; fi
    told=''
    report "$ok" "$what" "status $saw: $(head -n 1 wrote)"
}
prints 'help' 'usage: tzofnadir enhance' "$tz" help
prints '-h' 'usage: tzofnadir enhance' "$tz" -h
prints '--help behind a command and a film' 'usage: tzofnadir enhance' "$tz" enhance film.pgm --help
prints 'help behind a command' 'usage: tzofnadir enhance' "$tz" window help
prints '-h behind words that are wrong' 'usage: tzofnadir enhance' "$tz" enhance --bins -h
prints '--version is that of VERSION' "tzofnadir $(cat "$top/VERSION")" "$tz" --version
grep -qxF "#define TZ_VERSION \"$(cat "$top/VERSION")\"" "$top/station/tzofnadir.h" && ok=yes || ok=no
report "$ok" 'the header has the version of VERSION' "$(grep '^#define TZ_VERSION' "$top/station/tzofnadir.h")"
prints 'station/render --help, and no toolchain' 'usage: tzofnadir enhance' env RATTLE_HOME=/nowhere "$top/station/render" --help
prints 'station/render film.pgm help, and no toolchain' 'usage: tzofnadir enhance' env RATTLE_HOME=/nowhere "$top/station/render" film.pgm help
prints 'station/build --help, and no toolchain' 'station/build: builds' env RATTLE_HOME=/nowhere "$top/station/build" --help
"$tz" help >/dev/full 2>said
judge 'help on a full device' 74 $?

"$tz" enhance film.pgm spaced.pgm --clip 2.5 --bins 256 2>spaced
over enhance film.pgm "$out" --clip=2.5 --bins=256 2>said
saw=$?
if [ "$saw" -eq 0 ] && cmp -s spaced.pgm "$out" && cmp -s spaced said; then ok=yes; else ok=no; fi
report "$ok" '--clip=2.5 as --clip 2.5' "status $saw: $(head -n 1 said)"
try '--clip= without a value' 64 enhance film.pgm "$out" --clip=
try '--quiet with a value' 64 enhance film.pgm "$out" --quiet=yes
try 'an option cut short' 64 enhance film.pgm "$out" --bin=64
told='bins 1024, chosen by the range 0 to 4095'
try 'no bins: what was chosen is told' 0 enhance film.pgm "$out"
told='bins 256, chosen by the range 100 to 355'
{ printf 'P5\n256 256\n4095\n'; head -c 131072 /dev/zero | tr '\0' '\1'; } >flat.pgm
try 'no bins: a grey each in a short range' 0 enhance flat.pgm "$out" --range 100:355
"$tz" enhance film.pgm usual.pgm --bins 128 2>said
over enhance film.pgm "$out" --bins 0 2>said
saw=$?
if [ "$saw" -eq 0 ] && cmp -s usual.pgm "$out" && grep -q '^limit 72,' said && ! grep -q '^bins' said; then ok=yes; else ok=no; fi
report "$ok" '--bins 0 is --bins 128' "status $saw: $(head -n 1 said)"
over enhance film.pgm "$out" --quiet >wrote 2>said
saw=$?
if [ "$saw" -eq 0 ] && whole "$out" && [ ! -s said ] && [ ! -s wrote ]; then ok=yes; else ok=no; fi
report "$ok" '--quiet: the film, and not a word' "status $saw"
try '--quiet: a refusal is told all the same' 13 enhance film.pgm "$out" --quiet --range 0:9

# names that look like options
cp film.pgm ./--bins
(cd "$room" && "$tz" enhance --bins 128 -- --bins -h) 2>said
saw=$?
if [ "$saw" -eq 0 ] && cmp -s usual.pgm ./-h; then ok=yes; else ok=no; fi
report "$ok" 'files named --bins and -h behind --' "status $saw"
rm -f ./--bins ./-h
try 'no name behind --' 64 enhance film.pgm --
told="A file whose name begins with a dash stands behind '--', or as ./-film.pgm"
try 'a name that begins with a dash: told about --' 64 enhance -film.pgm "$out"

# names that steer a terminal are shown, and steer nothing
odd=$(printf 'red\033[31m\nand\302\233more\303\266.pgm')
told=$(printf 'red\\033[31m\\012and\302\\233more\303\266.pgm')
try 'control characters in a name: shown' 66 enhance "$odd" "$out"
if [ "$(tr -d '\n' <said | tr -d '\040-\176\302\303\266' | wc -c)" -eq 0 ]; then ok=yes; else ok=no; fi
report "$ok" 'control characters in a name: none is left' "$(head -n 1 said)"

# ---- several films
mkdir films many_out more
cp film.pgm films/a.pgm
cp cut.pgm films/b.pgm
cp shallow.pgm films/c.pgm
cp short.pgm films/d.pgm
over enhance film.pgm alone.pgm 2>said
several() { # WHAT WANTED TOLD WORDS..
    what=$1 wanted=$2 told=$3
    shift 3
    rm -rf many_out
    mkdir many_out
    "$tz" enhance --into many_out "$@" >wrote 2>said
    saw=$?
    if [ "$saw" -eq "$wanted" ] && grep -qF -- "$told" said && no_leftover many_out; then ok=yes; else ok=no; fi
    told=''
    report "$ok" "$what" "status $saw: $(tail -n 1 said | cut -c 1-90)"
}
several 'two films into a folder' 0 '2 films rendered into many_out' films/a.pgm films/c.pgm
cmp -s alone.pgm many_out/a.pgm && [ -f many_out/c.pgm ] && ok=yes || ok=no
report "$ok" 'two films into a folder: each as alone' "$(cd many_out && echo *)"
several 'four films, two of them refused: the worst one counts' 24 'films/d.pgm (status 24)' films/a.pgm films/b.pgm films/c.pgm films/d.pgm
cmp -s alone.pgm many_out/a.pgm && [ "$(cd many_out && echo *)" = 'a.pgm c.pgm' ] && ok=yes || ok=no
report "$ok" 'four films: the two that are not refused' "$(cd many_out && echo *)"
several 'a film that is not there, and one that is' 66 '1 of 2 films were not rendered:' films/nowhere.pgm films/a.pgm
cmp -s alone.pgm many_out/a.pgm && ok=yes || ok=no
report "$ok" 'a film that is not there, and one that is: rendered' "$(cd many_out && echo *)"
several 'two films of one name' 64 'two films would have the same name' films/a.pgm ./films/c.pgm ./films/a.pgm
several 'standard input into a folder' 64 'standard input has no name' films/a.pgm -
several 'no film into a folder' 64 'a film is missing' --bins 64
several '--record with --into' 64 'it is --records' films/a.pgm --record x.json
several '--records: a record beside each rendering' 0 '2 films rendered' --records films/a.pgm films/c.pgm
if [ "$(cd many_out && echo *)" = 'a.pgm a.pgm.json c.pgm c.pgm.json' ] && grep -q "$(sha256sum many_out/c.pgm | cut -c 1-64)" many_out/c.pgm.json; then ok=yes; else ok=no; fi
report "$ok" '--records: their names and digests' "$(cd many_out && echo *)"
try '--records without --into' 64 enhance film.pgm "$out" --records
try '--into of a window' 64 window --into out film.pgm --at 0,0 --size 8x8
try '--into a folder in no folder' 73 enhance --into nowhere/new film.pgm
try '--into a file' 73 enhance --into film.pgm films/a.pgm
told='the rendering would take a scan'
cp film.pgm more/a.pgm
try '--into the folder of the scans' 64 enhance --into more films/c.pgm ./more/a.pgm
if cmp -s film.pgm more/a.pgm && [ ! -e more/c.pgm ]; then ok=yes; else ok=no; fi
report "$ok" '--into the folder of the scans: nothing was begun' "$(cd more && echo *)"
told='several films want --into FOLDER'
try 'three names and no --into' 64 enhance film.pgm "$out" films/a.pgm

# ---- a terminal: script makes one
if command -v script >/dev/null; then
    script -qec "'$tz' enhance --jobs 1 --force --into many_out films/a.pgm films/c.pgm" typed </dev/null >/dev/null 2>&1
    if grep -qF '0 of 2 films done' typed && grep -q '1 of 2 films done, [0-9]* s left' typed && grep -q 'films/c.pgm: limit' typed; then ok=yes; else ok=no; fi
    report "$ok" 'progress on a terminal: films done of all, time left' "$(tr '\r' '\n' <typed | grep -c 'films done') lines written over"
    script -qec "'$tz' enhance --force films/a.pgm many_out/a.pgm" typed </dev/null >/dev/null 2>&1
    if grep -qF 'films/a.pgm: rendering' typed && grep -q '^limit' typed; then ok=yes; else ok=no; fi
    report "$ok" 'progress on a terminal: one film' "$(tr '\r' '\n' <typed | grep -c rendering) lines written over"
    script -qec "'$tz' enhance --force --quiet --into many_out films/a.pgm films/c.pgm" typed </dev/null >/dev/null 2>&1
    if grep -q 'films done' typed; then ok=no; else ok=yes; fi
    report "$ok" 'no progress with --quiet' ''
else
    skip 'progress on a terminal: there is no script (util-linux) here'
fi
