# shellcheck shell=sh disable=SC2154,SC2034
# station/faults.sh reads this: what the messages name, and tzofnadir info.
told='Asked were 8 tiles across and 8 down; the film is 7 pixels wide and 9 high.'
try 'a width of 7: the film' 5 enhance narrow.pgm "$out"
told='Tiles across that fit: 2 3 4 5 6 7. Tiles down that fit: 2 3 4 5 6 7 8 9.'
try 'a width of 7: the grids that fit' 5 enhance narrow.pgm "$out"
told='Tiles across that fit: 2 3 4 5 6 7 8 9 10 11 12 13 14 15 16.'
try 'grid 8x17: the same' 4 enhance film.pgm "$out" --grid 8x17
told='--grid 7x8 is the nearest that fits.'
try 'a width of 7: the nearest grid' 5 enhance narrow.pgm "$out"
told='--grid 9x7 is the nearest that fits.'
try 'a height of 7: the nearest grid' 6 enhance low.pgm "$out" --grid 9x16
try 'the grid that was named' 0 enhance low.pgm "$out" --grid 9x7
told='--grid 7x8 without --bytes is the nearest that fits.'
try '--bytes, a width of 7: the nearest grid' 5 enhance narrow.pgm "$out" --bytes
told='Tiles across that fit: none. Tiles down that fit: 2 3 4 5 6 7 8 9.'
try 'a width that no grid fits' 5 enhance column.pgm "$out"
if grep -q nearest said; then ok=no; else ok=yes; fi
report "$ok" 'a width that no grid fits: none is named' "$(tail -n 1 said)"
told='The first is at column 120, row 0: grey 1015, and the range is 0 to 1000.'
try 'range 0:1000: the first pixel outside' 13 enhance film.pgm "$out" --range 0:1000
told="The film's least grey is 450, its greatest 3388: --range 450:3388 holds them all."
try 'range 0:1000: least and greatest grey' 13 enhance film.pgm "$out" --range 0:1000
try 'the range that was named' 0 enhance film.pgm "$out" --range 450:3388
told='Asked was the range from 0 to 4096'
try 'range 0:4096: what was asked' 7 enhance film.pgm "$out" --range 0:4096
told='--bins 4097 '
try 'bins 4097: what was asked' 9 enhance film.pgm "$out" --bins 4097
told='Asked were 128 bins; the range 100 to 199 has 100 greys: --bins 100 is the most'
try 'more bins than greys: the numbers' 31 enhance film.pgm "$out" --bins 0 --range 100:199
told='--clip 0.5 --edition ours.'
try 'clip 0.5: what was asked' 10 enhance film.pgm "$out" --clip 0.5
told='From there it has 1 by 384.'
try 'a window across the edge: what is there' 16 window film.pgm "$out" --at 511,0 --size 2x2
told='--range 0:255 keeps below it'
try 'a rendering above maxval: the range' 26 enhance shallow.pgm "$out" --range 0:4095

# Files of other kinds: what each is told to be.
kind() { # WHAT BYTES TOLD
    # shellcheck disable=SC2059
    printf "$2" >kind.pgm
    told=$3
    try "$1" 20 enhance kind.pgm "$out"
}
kind 'a plain bitmap' 'P1\n2 2\n1 0 1 0\n' 'It is a plain bitmap (P1)'
kind 'a PPM' 'P6\n2 2\n255\nabcdefghijkl' 'It is a PPM (P6), in colour. A raw PGM is made of it by: ppmtopgm kind.pgm >NEW.pgm'
kind 'a PNG' '\211PNG\r\n\032\nIHDR' 'It is a PNG. A raw PGM is made of it by: station/import kind.pgm --into FOLDER'
kind 'a TIFF, low byte first' 'II*\0\010\0\0\0' 'It is a TIFF'
kind 'a TIFF, high byte first' 'MM\0*\0\0\0\010' 'It is a TIFF'
kind 'a JPEG' '\377\330\377\340' 'It is a JPEG, whose packing alters greys'
kind 'a DICOM file' "$(printf '%0128d' 0)DICM" 'It is a DICOM file. A raw PGM is made of it by: station/import kind.pgm --into FOLDER'
kind 'no file of a known kind' 'hello' 'It begins with byte 104'
kind 'an empty file' '' 'It is empty'
kind 'P5, and a header that breaks off' 'P5\n512 x384\n255\n' 'behind 1 of its three numbers the header breaks off, at byte 7'
kind 'P5, and a header that ends' 'P5\n512 38' 'behind 2 of its three numbers the header ends'
told='behind it stand 393215'
try 'a file cut by one byte: how long it is' 24 enhance short.pgm "$out"
told='two bytes, 393216 bytes; behind it stand 393217'
try 'a file with one byte more: how long it is' 25 enhance long.pgm "$out"
told='The header says 99999 by 99999 pixels'
try 'a film of 99999 by 99999: what the header says' 22 enhance huge.pgm "$out"
told='station/import deeper.pgm --into FOLDER takes an even step of greys for one, and says how many became one.'
{ printf 'P5\n2 2\n65535\n'; printf '\0\1llothe'; } >deeper.pgm
try 'a maxval of 65535, and samples as high: the import' 23 enhance deeper.pgm "$out"
told='station/import deeper.pgm --into FOLDER keeps every grey, less the least of them.'
{ printf 'P5\n2 2\n65535\n'; printf 'hahehiho'; } >deeper.pgm
try 'a maxval of 65535, and samples close together: the import' 23 enhance deeper.pgm "$out"
told='station/import comment.pgm --into FOLDER makes the same film without one.'
try 'a comment in the header: the import' 21 enhance comment.pgm "$out"
told='station/import huge.pgm --into FOLDER --cut makes films of it that overlap.'
try 'a film of 99999 by 99999: the import' 22 enhance huge.pgm "$out"

# Where a new header is all that is needed, the message has the command: it is run, and the film rendered.
way_out() { # WHAT STATUS FILM
    told='A new header alone does it'
    try "$1" "$2" enhance "$3" "$out"
    sed -n 's/.*alone does it: //p' said >way.sh
    sh ./way.sh
    try "$1: the way out" 0 enhance NEW.pgm "$out"
}
way_out 'a comment in the header' 21 comment.pgm
{ printf 'P5\n# scan\n512 384\n65535\n'; raster; } >both.pgm
way_out 'a comment, a maxval of 65535, and samples of 12 bits' 21 both.pgm
way_out 'a maxval of 65535, and samples of 12 bits' 23 deep.pgm
way_out 'a sample above maxval' 26 above.pgm

printf 'width\t512\nheight\t384\nmaxval\t4095\nleast\t450\ngreatest\t3388\n' >wanted
printf '%s\t2 3 4 5 6 7 8 9 10 11 12 13 14 15 16\n' across down >>wanted
"$tz" info film.pgm >wrote 2>said
saw=$?
if [ "$saw" -eq 0 ] && cmp -s wanted wrote; then ok=yes; else ok=no; fi
report "$ok" 'info' "status $saw: $(tr '\n\t' ';=' <wrote)"
printf 'width\t7\nheight\t9\nmaxval\t255\nleast\t0\ngreatest\t0\nacross\t2 3 4 5 6 7\ndown\t2 3 4 5 6 7 8 9\n' >wanted
"$tz" info narrow.pgm >wrote 2>said
saw=$?
if [ "$saw" -eq 0 ] && cmp -s wanted wrote; then ok=yes; else ok=no; fi
report "$ok" 'info of a film of 7 by 9' "status $saw: $(tail -n 2 wrote | tr '\n\t' ';=')"
try 'info of a cut file' 24 info short.pgm
try 'info of two files' 64 info film.pgm film.pgm
try 'info with a setting' 64 info film.pgm --bins 64
"$tz" info film.pgm >/dev/full 2>said
judge 'info on a full device' 74 $?
