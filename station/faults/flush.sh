# shellcheck shell=sh disable=SC2154,SC2034
# station/faults.sh reads this: flushing, modes and renames that fail, by faults that strace puts into the system call.
flush_fails() { # WHAT WHICH WANTED
    cp before "$out"
    strace -f -o trace -e trace=fsync -e "inject=fsync:error=EIO:when=$2" "$tz" enhance --force film.pgm "$out" >wrote 2>said
    saw=$?
    ok=yes
    [ "$saw" -eq 74 ] && no_leftover out || ok=no
    case $3 in
    old) cmp -s before "$out" || ok=no ;;
    new) cmp -s alone.pgm "$out" || ok=no ;;
    esac
    report "$ok" "$1" "status $saw: $(head -n 1 said | cut -c 1-100)"
}
if command -v strace >/dev/null && strace -f -o trace -e trace=fsync true 2>/dev/null; then
    "$tz" enhance --force film.pgm alone.pgm 2>said
    flush_fails 'the film cannot be flushed: OUT is as it was' 1 old
    flush_fails 'the folder cannot be flushed: OUT is the whole film' 2 new
    strace -f -o trace -e trace=fsync,rename,renameat,renameat2 "$tz" enhance --force film.pgm "$out" 2>said
    saw=$(sed -n 's/^[0-9]* *\(fsync\|rename\)[a-z0-9]*(.*= 0$/\1/p' trace | tr '\n' ' ')
    if [ "$saw" = 'fsync rename fsync ' ]; then ok=yes; else ok=no; fi
    report "$ok" 'the folder is flushed behind the rename' "$saw"

    # opening the folder for its flush, and the mode of the file that is replaced
    faulty() { # WHAT WANTED old|new INJECTED PATH
        cp before "$out"
        chmod 640 "$out"
        strace -f -o trace ${5:+-P "$5"} -e trace="${4%%:*}" -e "inject=$4" "$tz" enhance --force film.pgm "$out" >wrote 2>said
        saw=$?
        ok=yes
        grep -q INJECTED trace && [ "$saw" -eq "$2" ] && no_leftover out || ok=no
        grep -q '^tzofnadir: ' said || ok=no
        case $3 in
        old) cmp -s before "$out" || ok=no ;;
        new) cmp -s alone.pgm "$out" || ok=no ;;
        esac
        report "$ok" "$1" "status $saw: $(grep '^tzofnadir: ' said | cut -c 1-110)"
    }
    faulty 'the folder cannot be opened for its flush: told' 74 new openat:error=EIO "$room/out/"
    faulty 'no file can be opened any more for the flush: told' 74 new openat:error=EMFILE "$room/out/"
    faulty 'the folder may not be read: told, and done' 0 new openat:error=EACCES "$room/out/"
    faulty 'the mode cannot be kept: OUT is as it was' 74 old fchmod:error=EIO
    faulty 'the mode may not be kept: OUT is as it was' 74 old fchmod:error=EPERM

    # record and film: the renames are the second and the first from the end
    together() { # WHAT WANTED INJECTED RECORD FILM: what record and film have to be, before or after
        cp before "$out"
        cp before out/film.json
        [ "$4" != gone ] || rm out/film.json
        $undo strace -f -o trace -e 'trace=/^rename' -e "inject=/^rename:$3" "$tz" enhance --force film.pgm "$out" --record out/film.json >wrote 2>said
        saw=$?
        ok=yes
        [ "$saw" -eq "$2" ] && no_leftover out || ok=no
        case $4 in
        old) cmp -s before out/film.json || ok=no ;;
        new) grep -q "$(sha256sum <alone.pgm | cut -c 1-64)" out/film.json || ok=no ;;
        gone) [ ! -e out/film.json ] || ok=no ;;
        esac
        case $5 in
        old) cmp -s before "$out" || ok=no ;;
        new) cmp -s alone.pgm "$out" || ok=no ;;
        esac
        rm -f out/film.json
        report "$ok" "$1" "status $saw: $(grep '^tzofnadir: ' said | cut -c 1-90)"
    }
    together "the record's rename fails: both are as they were" 73 error=EIO:when=1 old old
    together "the film's rename fails: the old record comes back" 73 error=EIO:when=2 old old
    together "the film's rename fails: a record that was new is gone" 73 error=EIO:when=2 gone old
    together 'TERM at the first rename: record and film are both new' 143 signal=TERM:when=1 new new
    together 'INT at the first rename: the same' 130 signal=INT:when=1 new new
    together 'TERM at the second rename: the same' 143 signal=TERM:when=2 new new
else
    skip 'flushing, modes and renames that fail: there is no strace here, or it may not be used'
fi
