# shellcheck shell=sh disable=SC2154,SC2034
# station/faults.sh reads this: several that render at once, a clone that may only be read, links, another toolchain. All
# of it in a copy of this clone with what is built in it, so that nothing is touched here.
clone=$room/clone
mkdir "$clone" "$clone/target"
# rt's own work, crates/NAME/out, is large, and stays where it is
(cd "$top" && tar -cf - --exclude='crates/*/out' VERSION crates crates.txt docs station toolchain target/lib target/station) | tar -xf - -C "$clone"
over enhance film.pgm alone.pgm 2>said

# 8 at a time, each HOW_MANY times; all have to end with 0 and the same film.
eight_render() { # WHAT HOW_MANY
    rm -rf many
    mkdir many
    for who in 1 2 3 4 5 6 7 8; do
        for turn in $(seq "$2"); do
            "$clone/station/render" film.pgm "many/$who-$turn.pgm" 2>>many/said
            echo $?
        done >"many/$who.status" &
    done
    wait
    not_0=$(cat many/*.status | grep -cvx 0)
    same=0
    for film in many/*.pgm; do ! cmp -s alone.pgm "$film" || same=$((same + 1)); done
    left=$(find "$clone/target" -name '*.[0-9]*' | wc -l)
    if [ "$not_0,$same,$left" = "0,$((8 * $2)),0" ]; then ok=yes; else ok=no; fi
    report "$ok" "$1" "$same the same film, $not_0 ended otherwise, $left files left"
}
eight_render '8 station/render at once, all built' 6
touch "$clone/station/main.c"
eight_render '8 station/render at once, the program to be built' 1
rm -r "$clone/target/station"
eight_render '8 station/render at once, no program there' 1

# who has to wait for another build says so
touch "$clone/station/main.c"
rm -f built_by_now
# shellcheck disable=SC2016
flock "$clone/target/station.lock" sh -c 'for i in $(seq 600); do [ -e built_by_now ] || sleep 0.1; done' &
holder=$!
sleep 1
: >said
"$clone/station/build" 2>said &
child=$!
for i in $(seq 500); do grep -q waits said || sleep 0.1; done
: >built_by_now
wait "$child"
saw=$?
wait "$holder"
if [ "$saw" -eq 0 ] && grep -q 'another build is at work here, and this one waits' said; then ok=yes; else ok=no; fi
report "$ok" 'a build that waits for another says so' "status $saw: $(head -n 1 said)"

# a line for each crate that is proved, and all that rt says in a log: a stand-in says what rt says, and proves nothing
mkdir -p fake
cat >fake/rt <<END
#!/bin/sh
seq -f 'fn base_lists::f%g: proved' 400
echo 'crate base_lists: modules loaded=0 checked=39'
sleep 3
echo 'logic=proved functions=5'
[ ! -e "$room/broken" ] || { echo 'logic=not-proved'; echo 'rt: the library base_range did not build, so nothing above it was checked'; exit 1; }
echo 'crate tzofnadir: modules loaded=0 checked=22'
echo 'logic=proved functions=22'
mkdir -p out
cp "$top/target/lib/proved.a" out/libtzofnadir.a
END
chmod +x fake/rt
proving() { # WHAT WANTED TOLD
    touch "$clone/crates.txt"
    own=$("$top/toolchain/kit")
    RATTLE_HOME=$own PATH=$room/fake:$PATH "$clone/station/build" >wrote 2>said
    saw=$?
    if [ "$saw" -eq "$2" ] && grep -q "$3" said && [ "$(wc -l <said)" -lt 40 ] && [ "$(wc -l <"$clone/target/lib/build.log")" -ge 400 ]; then ok=yes; else ok=no; fi
    report "$ok" "$1" "status $saw, $(wc -l <said) lines: $(head -n 1 said)"
}
proving 'a first build: a line a crate, the rest in a log' 0 ': 1, of [0-9]* at most: base_lists proved, [2-9] s$'
saw=$(sed -n 's/.*: \([0-9]*\), of \([0-9]*\) at most: \([a-z_]*\) proved, [0-9]* s$/\1 \2 \3/p' said | tr '\n' ' ')
most=$("$top/toolchain/beneath" --crates tzofnadir | wc -l)
if [ "$most" -gt 50 ] && [ "$saw" = "1 $most base_lists 2 $most tzofnadir " ]; then ok=yes; else ok=no; fi
report "$ok" 'a first build: of how many crates at most, the last of which is the library' "$saw"
: >broken
proving 'a first build that fails: what failed, and the end of the log' 1 'base_range NOT PROVED'
rm broken
proving 'built again' 0 ': 1, of [0-9]* at most: base_lists proved, [2-9] s$'

# what removes target/, as the gate does: program, library and the sample's rendering are as they were
"$clone/station/render" >wrote 2>said
what_is_built() { (cd "$clone" && find target/lib target/station target/weld-rendered.pgm -type f -exec ls -l --full-time {} + && sha256sum target/weld-rendered.pgm); }
what_is_built >was
(cd "$clone" && toolchain/keep sh -c 'rm -rf target && mkdir -p target/rlib target/stamp && exit 3') 2>said
saw=$?
what_is_built >is
if [ "$saw" -eq 3 ] && cmp -s was is && [ -d "$clone/target/rlib" ]; then ok=yes; else ok=no; fi
report "$ok" 'the gate leaves program, library and rendering as they were' "status $saw: $(head -n 1 said | cut -c 1-60)"
: >said
(cd "$clone" && exec toolchain/keep sh -c 'rm -rf target && sleep 8') 2>said &
child=$!
for i in $(seq 500); do ! grep -q 'lies in' said || break; sleep 0.1; done
kill "$child"
wait "$child"
saw=$?
what_is_built >is
if [ "$saw" -ne 0 ] && cmp -s was is; then ok=yes; else ok=no; fi
report "$ok" 'a gate that is stopped: the same' "status $saw"
"$clone/station/build" 2>said
saw=$?
if [ "$saw" -eq 0 ] && [ ! -s said ]; then ok=yes; else ok=no; fi
report "$ok" 'behind the gate nothing is to be built' "status $saw"
"$clone/station/render" >wrote 2>said
saw=$?
if [ "$saw" -eq 0 ] && cmp -s alone.pgm "$clone/target/weld-rendered.pgm"; then ok=yes; else ok=no; fi
report "$ok" 'station/render without words, its rendering being there' "status $saw: $(cat wrote)"
rm -f "$clone/target/weld-rendered.pgm"

ln -s "$clone/target/station/tzofnadir" runner
rm -f "$out"
./runner enhance film.pgm "$out" 2>said
saw=$?
if [ "$saw" -eq 0 ] && cmp -s alone.pgm "$out"; then ok=yes; else ok=no; fi
report "$ok" 'a link to the runner' "status $saw"
ln -s "$clone/station/render" renderer
rm -f "$out"
./renderer film.pgm "$out" 2>said
saw=$?
if [ "$saw" -eq 0 ] && cmp -s alone.pgm "$out"; then ok=yes; else ok=no; fi
report "$ok" 'a link to station/render' "status $saw"

# another edition of the toolchain, and the same one in another place
mkdir kit
"$clone/toolchain/shim" "$room/kit" >/dev/null
printf '#!/bin/sh\n' >kit/clang
chmod +x kit/clang
stale() { (cd "$clone" && toolchain/stale target/station/tzofnadir.x86-64 station/build); }
saw=''
for word in same other; do
    if RATTLE_HOME=$room/kit stale; then saw="$saw $word: stale."; else saw="$saw $word: not stale."; fi
    rm kit/KIT-ID
    echo 'another kit' >kit/KIT-ID
done
if [ "$saw" = ' same: not stale. other: stale.' ]; then ok=yes; else ok=no; fi
report "$ok" 'another edition of the toolchain is noticed' "$saw"

chmod -R a-w "$clone"
mkdir -m 777 theirs
if $drop "$clone/target/station/tzofnadir" --help >wrote 2>said; then
    (cd "$clone" && $drop station/render "$room/film.pgm" "$room/theirs/film.pgm") 2>said
    saw=$?
    if [ "$saw" -eq 0 ] && cmp -s alone.pgm theirs/film.pgm; then ok=yes; else ok=no; fi
    report "$ok" 'a clone that may only be read: station/render IN OUT' "status $saw"
    (cd "$clone" && TMPDIR=$room/theirs $drop station/render) >wrote 2>said
    saw=$?
    film=$(sed 's/.*: //' wrote)
    if [ "$saw" -eq 0 ] && whole "$film" && [ ! -e "$clone/target/weld-rendered.pgm" ]; then ok=yes; else ok=no; fi
    report "$ok" 'a clone that may only be read: station/render' "status $saw: $(cat wrote)"
    chmod u+w "$clone/station/main.c"
    touch "$clone/station/main.c"
    cp before theirs/film.pgm
    (cd "$clone" && $drop station/render "$room/film.pgm" "$room/theirs/film.pgm" --force) 2>said
    saw=$?
    if [ "$saw" -eq 69 ] && cmp -s before theirs/film.pgm; then ok=yes; else ok=no; fi
    report "$ok" 'a clone that may only be read, and something to be built' "status $saw: $(tail -n 1 said)"
else
    skip 'a clone that may only be read: nobody cannot run the program here'
fi
chmod -R u+w "$clone"
