# shellcheck shell=sh disable=SC2154,SC2034
# station/faults.sh reads this: many films in one call: folders and lists as inputs, several at once, killed and run again.
many() { # WHAT WANTED TOLD WORDS..: into batch_out, which is made
    what=$1 wanted=$2 told=$3
    shift 3
    rm -rf batch_out
    timeout 300 "$tz" enhance --into batch_out "$@" >wrote 2>said
    saw=$?
    if [ "$saw" -eq "$wanted" ] && grep -qF -- "$told" said && no_leftover batch_out; then ok=yes; else ok=no; fi
    told=''
    report "$ok" "$what" "status $saw: $(tail -n 1 said | cut -c 1-90)"
}
holds() { # WHAT NAMES: what the folder has to hold
    saw=$(cd batch_out 2>/dev/null && echo *)
    if [ "$saw" = "$2" ]; then ok=yes; else ok=no; fi
    report "$ok" "$1" "$saw"
}

# ---- folders and lists
rm -rf batch
mkdir -p batch/in/deeper batch/none
cp film.pgm batch/in/b.pgm
cp little.pgm batch/in/a.PGM
cp little.pgm batch/in/.hidden.pgm
cp little.pgm batch/in/deeper/d.pgm
cp before batch/in/note.txt
cp little.pgm batch/@odd.pgm
many 'a folder of films' 0 '2 films rendered into batch_out' batch/in
holds 'a folder of films: those whose names end in .pgm' 'a.PGM b.pgm'
many 'a folder of films, a slash behind it, and a film' 0 '3 films rendered' batch/in/ batch/@odd.pgm
many 'a folder without films' 66 'has no film: no file in it has a name that ends in .pgm' batch/none
if [ ! -e batch_out ]; then ok=yes; else ok=no; fi
report "$ok" 'a folder without films: no folder is made' ''
printf 'batch/in/b.pgm\n\nbatch/in/deeper\r\n@batch/second\n' >batch/list
printf 'batch/@odd.pgm' >batch/second
many 'a list: a film, a folder, another list' 0 '3 films rendered' @batch/list
holds 'a list: its films' '@odd.pgm b.pgm d.pgm'
printf 'batch/in/b.pgm\n@batch/self\n' >batch/self
many 'a list that names itself' 64 'the list batch/self names itself' @batch/self
printf '@batch/pong\n' >batch/ping
printf '@batch/./ping\n' >batch/pong
many 'two lists that name each other' 64 'names itself' @batch/ping
many 'the same list twice: two films of one name' 64 'two films would have the same name' @batch/second @batch/second
many 'a list that is not there' 66 'cannot open the list batch/nowhere' @batch/nowhere
printf '\n\n' >batch/empty
many 'a list that names nothing' 66 'names no film' @batch/empty
many 'a list without a name' 66 'cannot open the list' @
printf 'batch/nowhere.pgm\nbatch/in/b.pgm\n' >batch/half
many 'a list with a film that is not there' 66 '1 of 2 films were not rendered:' @batch/half
holds 'a list with a film that is not there: the other one' 'b.pgm'
(cd batch && "$tz" enhance --into ../batch_out --force -- @odd.pgm) 2>said
saw=$?
if [ "$saw" -eq 0 ] && [ -f batch_out/@odd.pgm ]; then ok=yes; else ok=no; fi
report "$ok" 'a film whose name begins with @, behind --' "status $saw"
many 'a folder of renderings that is there, and what it holds is not' 0 '1 film rendered into batch_out' batch/in/b.pgm
mkdir batch_out/c.pgm
cp little.pgm batch/c.pgm
try 'a folder in the place of a rendering' 73 enhance --into batch_out batch/in/b.pgm batch/c.pgm

# ---- several at once
many '--jobs 0' 64 '--jobs does not take this value' --jobs 0 batch/in
many '--jobs x' 64 '--jobs does not take this value' --jobs x batch/in
many '--jobs 4294967295: as many as can be' 0 '2 films rendered' --jobs 4294967295 batch/in
try '--jobs of one film' 64 enhance film.pgm "$out" --jobs 2
rm -rf batch/bad
mkdir batch/bad
for i in 1 2 3 4 5 6 7 8; do cp cut.pgm "batch/bad/$i.pgm"; done
cp short.pgm batch/bad/9.pgm
many '--jobs 4, nine refused films: the worst one counts' 24 '9 of 9 films were not rendered' --jobs 4 batch/bad
saw=$(sed -n 's/^tzofnadir: batch\/bad\/.\.pgm: refused, 20:.*/R/p; s/^  It begins with P5, and behind 2.*/b/p; s/^  Due are width.*/d/p' said | tr -d '\n')
if [ "$saw" = RbdRbdRbdRbdRbdRbdRbdRbd ]; then ok=yes; else ok=no; fi
report "$ok" "--jobs 4: each film's messages together" "$saw"

# ---- 200 films, killed in the middle and run again
rm -rf batch/scans batch/alone
mkdir batch/scans batch/alone
i=0
while [ "$i" -lt 200 ]; do
    wide=$((64 + i % 37)) high=$((48 + i % 23)) deep=$((i % 2)) name=batch/scans/film-$i.pgm
    if [ "$deep" -eq 1 ]; then printf 'P5\n%d %d\n4095\n' "$wide" "$high"; else printf 'P5\n%d %d\n255\n' "$wide" "$high"; fi >"$name"
    tail -c +$((17 + 1800 * i)) film.pgm | head -c $((wide * high * (1 + deep))) >>"$name"
    i=$((i + 1))
done
(cd batch/scans && sha256sum -- *.pgm) >batch/were
scans_left() { (cd batch/scans && sha256sum -- *.pgm) | cmp -s - batch/were; }
# Each rendering that is there is whole and of its own scan: its record has the digests of both.
own_films() { # FOLDER: how many have no record or another
    other=0
    for f in "$1"/*.pgm; do
        name=${f##*/}
        [ -e "$f" ] || continue
        digests=$(sed -n 's/^ *"sha256": "\(.*\)",$/\1/p' "$f.json" 2>/dev/null | tr '\n' ' ')
        [ "$digests" = "$(sha256sum <"batch/scans/$name" | cut -c 1-64) $(sha256sum <"$f" | cut -c 1-64) " ] || other=$((other + 1))
    done
    echo "$other"
}
at_work() { [ -e "/proc/$1/status" ] && ! grep -q '^State:.*Z' "/proc/$1/status" 2>/dev/null; } # PROCESS
killed() { # SIGNAL STATUS
    rm -rf batch_out
    $undo "$tz" enhance --into batch_out --records --jobs 2 batch/scans >wrote 2>said &
    child=$!
    while [ "$(ls batch_out 2>/dev/null | wc -l)" -lt 120 ] && kill -0 "$child" 2>/dev/null; do :; done
    workers=''
    if [ "$1" = KILL ]; then
        kill -s STOP "$child" 2>/dev/null # so that it begins no other
        workers=$(cat "/proc/$child/task/$child/children" 2>/dev/null)
    fi
    kill -s "$1" "$child" 2>/dev/null
    wait "$child" 2>/dev/null
    saw=$?
    [ -n "$workers" ] || sleep 0.5
    waited=0 # after KILL the two processes that were at work finish their films
    for worker in $workers; do
        while at_work "$worker" && [ "$waited" -lt 3000 ]; do
            waited=$((waited + 1))
            sleep 0.01
        done
    done
    there=$(ls batch_out | grep -c 'pgm$')
    other=$(own_films batch_out)
    ok=yes
    [ "$saw" -eq "$2" ] && [ "$there" -lt 200 ] && [ "$other" -eq 0 ] && scans_left || ok=no
    [ "$1" = KILL ] || no_leftover batch_out || ok=no
    report "$ok" "200 films, killed by $1: each that is there is its own scan's" "status $saw: $there films, $other of another scan"
    "$tz" enhance --into batch_out --records --jobs 2 batch/scans >wrote 2>said
    saw=$?
    if [ "$saw" -eq 64 ] && [ "$(ls batch_out | grep -c 'pgm$')" -eq "$there" ]; then ok=yes; else ok=no; fi
    report "$ok" '200 films run again: what is there wants --force' "status $saw: $(tail -n 1 said)"
    "$tz" enhance --force --into batch_out --records --jobs 2 batch/scans >wrote 2>said
    saw=$?
    there=$(ls batch_out | grep -c 'pgm$')
    other=$(own_films batch_out)
    ok=yes
    [ "$saw" -eq 0 ] && [ "$there" -eq 200 ] && [ "$other" -eq 0 ] && scans_left && no_leftover batch_out || ok=no
    report "$ok" '200 films run again with --force: all there, no new file left' "status $saw: $there films, $other of another scan"
}
killed TERM 143
killed KILL 137
differ=0
for i in 0 1 17 50 99 100 150 199; do
    over enhance "batch/scans/film-$i.pgm" batch/alone.pgm 2>said && cmp -s batch/alone.pgm "batch_out/film-$i.pgm" || differ=$((differ + 1))
done
if [ "$differ" -eq 0 ]; then ok=yes; else ok=no; fi
report "$ok" 'eight of the 200 films: each as alone' "$differ differ"
cp -r batch_out batch/two
"$tz" enhance --force --into batch_out --records --jobs 1 batch/scans >wrote 2>said
saw=$?
if [ "$saw" -eq 0 ] && diff -r batch/two batch_out >wrote; then ok=yes; else ok=no; fi
report "$ok" '200 films with --jobs 1: the same films and records' "status $saw"

# one of the processes ends by a signal: the others go on
rm -rf batch_out
"$tz" enhance --into batch_out --jobs 2 big.pgm batch/in/b.pgm batch/in/a.PGM >wrote 2>said &
child=$!
victim=''
while [ ! -d batch_out ] && kill -0 "$child" 2>/dev/null; do :; done # before that its runner has processes of its own
while [ -z "$victim" ] && kill -0 "$child" 2>/dev/null; do victim=$(cut -d ' ' -f 1 "/proc/$child/task/$child/children" 2>/dev/null); done
[ -z "$victim" ] || kill -s KILL "$victim" 2>/dev/null
wait "$child"
saw=$?
if [ "$saw" -eq 137 ] && grep -q 'big.pgm: its process was ended by signal 9' said && cmp -s alone.pgm batch_out/b.pgm && [ -f batch_out/a.PGM ]; then ok=yes; else ok=no; fi
report "$ok" 'one process of three is killed: the others go on' "status $saw: $(head -n 1 said)"

# ---- a full disk in the middle
mkdir -p disk
if [ "$(id -u)" -eq 0 ] && mount -t tmpfs -o size=1m tmpfs "$room/disk" 2>/dev/null; then
    disk=$room/disk
    mkdir batch/six
    for i in 1 2 3 4 5 6; do cp film.pgm "batch/six/$i.pgm"; done
    "$tz" enhance --into disk/out --jobs 2 batch/six >wrote 2>said
    saw=$?
    whole_ones=0
    for f in disk/out/*.pgm; do ! cmp -s alone.pgm "$f" || whole_ones=$((whole_ones + 1)); done
    told_ones=$(grep -c '^  Make room there, and give the same words again.' said)
    if [ "$saw" -eq 74 ] && [ "$whole_ones" -gt 0 ] && [ $((whole_ones + told_ones)) -eq 6 ] &&
        [ "$(ls disk/out | wc -l)" -eq "$whole_ones" ] && no_leftover disk/out; then ok=yes; else ok=no; fi
    report "$ok" 'a full disk in the middle of six films' "status $saw: $whole_ones whole, $told_ones told of the disk"
    umount "$disk" && disk=''
else
    skip 'a full disk in the middle of several films: no file system can be mounted here'
fi
