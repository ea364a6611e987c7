# shellcheck shell=sh disable=SC2154,SC2034
# station/faults.sh reads this: what station/install puts into a folder, and its use from C and Python.
installed() { # WHAT WANTED TOLD WORDS..
    what=$1 wanted=$2 told=$3
    shift 3
    "$@" >wrote 2>said
    saw=$?
    if [ "$saw" -eq "$wanted" ] && grep -qF -- "$told" said; then ok=yes; else ok=no; fi
    told=''
    report "$ok" "$what" "status $saw: $(tail -n 1 said | cut -c 1-90)"
}
version=$(cat "$top/VERSION")
prefix=$room/prefix
installed 'station/install' 0 "tzofnadir $version is in $prefix" "$top/station/install" "$prefix"
missing=''
for file in include/tzofnadir.h lib/libtzofnadir.a lib/libtzofnadir.so "lib/libtzofnadir.so.$version" lib/pkgconfig/tzofnadir.pc share/man/man1/tzofnadir.1 bin/tzofnadir; do
    [ -s "$prefix/$file" ] || missing="$missing $file"
done
left=$(find "$prefix" -name '*.[0-9][0-9]*' ! -name "libtzofnadir.so.$version" | wc -l) # a version may have such numbers itself
if [ -z "$missing" ] && [ "$left" -eq 0 ] && [ "$("$prefix/bin/tzofnadir" --version)" = "tzofnadir $version" ]; then ok=yes; else ok=no; fi
report "$ok" 'what was installed is all there, and the program runs' "missing: ${missing:-nothing}"
installed 'station/install over what is there' 0 'is in' "$top/station/install" "$prefix"
installed 'station/install without a folder' 64 'usage:' "$top/station/install"
installed 'station/install of an option that is none' 64 'no such option' "$top/station/install" --force
installed 'station/install into a file' 73 'could not be put in its place' "$top/station/install" "$room/film.pgm"
mkdir -p taken/bin/tzofnadir
installed 'station/install where a folder has the program'"'"'s name' 73 'could not be put in its place' "$top/station/install" "$room/taken"
installed 'station/install where nothing can be built' 69 'could not be built' env RATTLE_HOME=/nowhere "$top/station/install" "$room/none"
missing=''
for option in $("$tz" help | grep -o -- '--[a-z][a-z]*' | sort -u); do
    sed 's/\\//g' "$top/station/tzofnadir.1" | grep -qF -- "$option" || missing="$missing $option"
done
if [ -z "$missing" ]; then ok=yes; else ok=no; fi
report "$ok" 'the man page has each option of help' "missing: ${missing:-nothing}"

# ---- the library that is delivered, by the toolchain alone, under its emulator where this is no x86-64
{ echo "$version"; printf '4\t4\t2\t2\t4\t0\t15\t2\n0\t0\t2\t3\t7\t11\t15\t15\n0\t1\t0\t0\t3\t7\t11\t15\n1\t0\t2\t2\t3\t3\t7\t15\n1\t1\t0\t0\t7\t7\t7\t15\n'; } >wanted
tools=$("$top/toolchain/kit")/toolchain
by_toolchain() { # PROGRAM SOURCE ..: of sources of station/faults
    program=$1 objects=''
    shift
    for source in "$@"; do
        object=$program-$(basename "$source" .c).o
        "$top/toolchain/compile" x86_64 "$top/station/faults/$source" "$object" -O2 || return
        objects="$objects $object"
    done
    # shellcheck disable=SC2086
    "$top/toolchain/link" x86_64 "$program" $objects
}
run_made() { # PROGRAM WORDS ..
    if [ -x "$tools/bin/qemu-x86_64" ]; then
        "$tools/bin/qemu-x86_64" "$tools/lib/ld-linux-x86-64.so.2" --library-path "$tools/lib" "$@"
    else
        "$@"
    fi
}
by_toolchain loaded loaded.c >wrote 2>said && run_made ./loaded "$prefix/lib/libtzofnadir.so" >wrote 2>>said
saw=$?
if [ "$saw" -eq 0 ] && cmp -s wanted wrote; then ok=yes; else ok=no; fi
report "$ok" 'the shared library loaded by its name: the listing of the rules' "status $saw: $(tail -n 1 said)"

# ---- rooms
by_toolchain guarded_room rooms/calls.c rooms/guarded.c rooms/desk.c rooms/guarded_room.c >wrote 2>said && run_made ./guarded_room "$prefix/lib/libtzofnadir.so" >wrote 2>>said
saw=$?
if [ "$saw" -eq 0 ]; then ok=yes; else ok=no; fi
report "$ok" 'rooms on guarded memory: wild records, buffers one short, refusals that write nothing' "status $saw: $(cat wrote)$(tail -n 1 said)"
ended=''
for word in behind locked; do
    # shellcheck disable=SC3045
    (ulimit -c 0 2>/dev/null; run_made ./guarded_room "$prefix/lib/libtzofnadir.so" "$word") >wrote 2>&1
    ended="$ended $?"
done 2>/dev/null
if [ "$ended" = ' 139 139' ]; then ok=yes; else ok=no; fi
report "$ok" 'the guards themselves: an entry too many, and a write where one may only read' "status$ended"
steps=100000
[ ! -x "$tools/bin/qemu-x86_64" ] || steps=5000
by_toolchain steps rooms/calls.c rooms/list.c rooms/steps.c >wrote 2>said && run_made ./steps "$prefix/lib/libtzofnadir.so" "$steps" >wrote 2>>said
saw=$?
if [ "$saw" -eq 0 ] && grep -q "^$steps steps: .* and no difference\$" wrote; then ok=yes; else ok=no; fi
report "$ok" "$steps random steps in rooms, beside a plain list of films prepared alone" "status $saw: $(cat wrote)$(tail -n 1 said)"

# ---- for aarch64, made here, and run under an emulator where there is one
machine_of() { od -An -tu1 -j18 -N1 "$1" | tr -d ' '; } # PROGRAM: ELF's number of its machine
arm() { qemu-aarch64 -L /usr/aarch64-linux-gnu -E LD_LIBRARY_PATH="$room/arm/lib" "$@"; }
for_aarch64() {
    installed 'station/install --aarch64' 0 "tzofnadir $version is in $room/arm" "$top/station/install" --aarch64 "$room/arm"
    saw="$(machine_of arm/bin/tzofnadir) $(machine_of "arm/lib/libtzofnadir.so.$version")"
    if [ "$saw" = '183 183' ]; then ok=yes; else ok=no; fi
    report "$ok" 'station/install --aarch64: program and library are of that machine' "$saw"
    command -v qemu-aarch64 >/dev/null || { skip 'the program for aarch64: there is no qemu-aarch64 here'; return; }
    rm -f from_arm.pgm from_arm.json alone.json
    over enhance film.pgm alone.pgm --record alone.json 2>said
    arm arm/bin/tzofnadir enhance film.pgm from_arm.pgm --record from_arm.json 2>said
    saw=$?
    sed 's/alone\.pgm/from_arm.pgm/' alone.json | cmp -s - from_arm.json || saw="$saw, another record"
    if [ "$saw" = 0 ] && cmp -s alone.pgm from_arm.pgm; then ok=yes; else ok=no; fi
    report "$ok" 'the program for aarch64: the same film and record' "status $saw: $(tail -n 1 said)"
    # shellcheck disable=SC2016
    sed -n '/^```c$/,/^```$/p' "$top/README.md" | sed '/^```/d' >render.c
    aarch64-linux-gnu-gcc render.c -o render_arm -Iarm/include -Larm/lib -ltzofnadir >wrote 2>said && arm ./render_arm <film.pgm >from_arm.pgm 2>>said
    saw=$?
    if [ "$saw" -eq 0 ] && cmp -s alone.pgm from_arm.pgm; then ok=yes; else ok=no; fi
    report "$ok" "README's program in C for aarch64, with the shared library" "status $saw: $(tail -n 1 said)"
    aarch64-linux-gnu-gcc -std=c11 -O2 -o steps_arm "$top/station/faults/rooms/calls.c" "$top/station/faults/rooms/list.c" "$top/station/faults/rooms/steps.c" -ldl >wrote 2>said &&
        arm ./steps_arm "$room/arm/lib/libtzofnadir.so" 2000 >wrote 2>>said
    saw=$?
    if [ "$saw" -eq 0 ] && grep -q '^2000 steps: .* and no difference$' wrote; then ok=yes; else ok=no; fi
    report "$ok" '2000 random steps in rooms, on aarch64' "status $saw: $(cut -c 1-60 wrote)$(tail -n 1 said)"
}
if command -v aarch64-linux-gnu-gcc >/dev/null; then
    for_aarch64
else
    skip 'station/install --aarch64: there is no aarch64-linux-gnu-gcc here (Debian: gcc-aarch64-linux-gnu, libc6-dev-arm64-cross)'
fi

# ---- use on this machine: elsewhere than on x86-64 with the library made for it, if that is made already and not stale
# shellcheck disable=SC2046
made_for_us() { (cd "$top" && ! toolchain/stale target/native/libtzofnadir.a $(toolchain/beneath tzofnadir) crates.txt); }
if [ "$(uname -m)" != x86_64 ]; then
    prefix=''
    if made_for_us && command -v cc >/dev/null; then
        prefix=$room/own
        installed 'station/install --native' 0 'is in' "$top/station/install" --native "$prefix"
    fi
fi
over enhance film.pgm alone.pgm 2>said
if [ -n "$prefix" ] && command -v cc >/dev/null; then
    # shellcheck disable=SC2016
    sed -n '/^```c$/,/^```$/p' "$top/README.md" | sed '/^```/d' >render.c
    # README's own lines, in this folder, the prefix being none of the system's
    readme() { sed -n 's/^    \(PKG_CONFIG_PATH=\|export PKG\|cc render\.c\)/\1/p' "$top/README.md" | sed "s|PREFIX|$prefix|g"; }
    unset LD_LIBRARY_PATH PKG_CONFIG_PATH
    if command -v pkg-config >/dev/null; then
        rm -f render
        { echo 'set -e'; readme | sed '/\.a$/d'; } >lines
        sh lines >wrote 2>said && ./render <film.pgm >from_c.pgm 2>>said
        saw=$?
        if [ "$saw" -eq 0 ] && cmp -s alone.pgm from_c.pgm; then ok=yes; else ok=no; fi
        report "$ok" "README's program in C, with the shared library" "status $saw: $(tail -n 1 lines | cut -c 1-60)"
    else
        skip "README's program in C with the shared library: there is no pkg-config here"
    fi
    rm -f render
    readme | grep '\.a$' >lines
    sh lines >wrote 2>said && ./render <film.pgm >from_c.pgm 2>>said
    saw=$?
    if [ "$saw" -eq 0 ] && cmp -s alone.pgm from_c.pgm; then ok=yes; else ok=no; fi
    report "$ok" "README's program in C, with the archive" "status $saw: $(tail -n 1 said)"
    cc -std=c11 -Wall -Wextra -Werror -o warned render.c "-I$prefix/include" "$prefix/lib/libtzofnadir.a" >wrote 2>said
    saw=$?
    if [ "$saw" -eq 0 ]; then ok=yes; else ok=no; fi
    report "$ok" "README's program in C, and no warning" "status $saw: $(tail -n 1 said)"
    # compiled with another edition's header: the version is the loaded library's
    mkdir -p another
    sed 's/^#define TZ_VERSION .*/#define TZ_VERSION "9.9.9"/' "$prefix/include/tzofnadir.h" >another/tzofnadir.h
    printf '#include <stdio.h>\n#include <tzofnadir.h>\nint main(void) { printf("%%s %%s", TZ_VERSION, tz_version()); }\n' >which.c
    cc -std=c11 -o which which.c -Ianother "-L$prefix/lib" -ltzofnadir "-Wl,-rpath,$prefix/lib" >wrote 2>said
    saw=$(./which 2>>said)
    if [ "$saw" = "9.9.9 $version" ]; then ok=yes; else ok=no; fi
    report "$ok" "tz_version() is the loaded library's, whatever the header" "$saw$(tail -n 1 said)"
    # a station's program: ten films through a room of eight, and each window what the command line makes of that film alone
    films=''
    for i in 1 2 3 4 5 6 7 8 9 10; do
        size=120x90 at=28,13 part=64x64
        [ "$i" -ne 4 ] || size=131x97 at=33,16
        [ "$i" -ne 7 ] || size=50x40 at=0,0 part=50x40
        "$tz" window film.pgm "open$i.pgm" --at "$((30 * i)),$((20 * i))" --size "$size" --clip 1 2>said
        "$tz" window "open$i.pgm" "shown$i.pgm" --at "$at" --size "$part" --bins 256 2>said
        films="$films open$i.pgm"
    done
    for i in 1 2 3 4 5 6 7 8 2 3 4 5 6 7 8 9 3 4 5 6 7 8 9 10; do cat "shown$i.pgm"; done >wanted
    # shellcheck disable=SC2086
    cc -std=c11 -Wall -Wextra -Werror -o station_room "$top/examples/room.c" "-I$prefix/include" "-L$prefix/lib" -ltzofnadir "-Wl,-rpath,$prefix/lib" >wrote 2>said &&
        ./station_room $films >wrote 2>said
    saw=$?
    if [ "$saw" -eq 0 ] && cmp -s wanted wrote && [ "$(cat shown*.pgm | wc -c)" -gt 70000 ]; then ok=yes; else ok=no; fi
    report "$ok" 'examples/room.c: eight films open in one room, each as the command line shows it' "status $saw: $(tail -n 1 said)"
    ./station_room open1.pgm short.pgm >wrote 2>said
    saw=$?
    if [ "$saw" -eq 24 ] && [ ! -s wrote ]; then ok=yes; else ok=no; fi
    report "$ok" 'examples/room.c, and a cut file' "status $saw: $(tail -n 1 said)"
    ./render <short.pgm >from_c.pgm 2>said
    saw=$?
    if [ "$saw" -eq 24 ] && [ ! -s from_c.pgm ] && [ -s said ]; then ok=yes; else ok=no; fi
    report "$ok" "README's program in C, and a cut file" "status $saw: $(head -n 1 said)"
else
    skip "README's program in C: no cc here, or no library for this machine (toolchain/library native makes it)"
fi
if [ -n "$prefix" ] && command -v python3 >/dev/null; then
    python3 -B "$top/examples/render.py" "$prefix/lib/libtzofnadir.so" film.pgm from_python.pgm >wrote 2>said
    saw=$?
    if [ "$saw" -eq 0 ] && cmp -s alone.pgm from_python.pgm; then ok=yes; else ok=no; fi
    report "$ok" 'examples/render.py: the film of the command line' "status $saw: $(cat wrote)"
    python3 -B "$top/examples/render.py" "$prefix/lib/libtzofnadir.so" short.pgm from_python.pgm >wrote 2>said
    saw=$?
    if [ "$saw" -eq 1 ] && grep -qF 'refused, 24: The file ends before its last pixel' said; then ok=yes; else ok=no; fi
    report "$ok" 'examples/render.py: a cut file' "status $saw: $(cat said)"
    saw=$(PYTHONPATH=$top/examples python3 -B -c 'import render, sys
library = render.load(sys.argv[1])
print(*(library.tz_write_bytes(*sides) for sides in ((512, 384), (0, 9), (4096, 4096), (2**32 - 1, 2**32 - 1), (2**32 - 1, 1))))' "$prefix/lib/libtzofnadir.so" 2>said)
    if [ "$saw" = '393234 18 33554450 33554450 8210' ]; then ok=yes; else ok=no; fi
    report "$ok" 'tz_write_bytes is bounded, whatever the sides' "$saw"
    saw=$(PYTHONPATH=$top/examples python3 -B -c 'import ctypes, render, sys
library, settings = render.load(sys.argv[1]), [render.Settings(8, 8, 0), render.Settings(16, 16, 4096), render.Settings(*[2**32 - 1] * 3)]
library.tz_room_entries.argtypes, library.tz_room_entries.restype = [ctypes.POINTER(render.Settings), ctypes.c_uint32], ctypes.c_size_t
print(*(library.tz_room_entries(ctypes.byref(s), films) for s in settings for films in (0, 3, 8, 9, 2**32 - 1)))' "$prefix/lib/libtzofnadir.so" 2>said)
    if [ "$saw" = '0 24576 65536 65536 65536 0 3145728 8388608 8388608 8388608 0 3145728 8388608 8388608 8388608' ]; then ok=yes; else ok=no; fi
    report "$ok" 'tz_room_entries is bounded, whatever is asked' "$saw"
    python3 -B "$top/station/faults/axes.py" "$top/examples" "$prefix/lib/libtzofnadir.so" film.pgm >wrote 2>said
    saw=$?
    if [ "$saw" -eq 0 ]; then ok=yes; else ok=no; fi
    report "$ok" "a record's edges and centres: the rule's, and no others are drawn with" "status $saw: $(cat wrote)$(tail -n 1 said)"
    python3 -B "$top/station/faults/editions.py" "$top/examples" "$prefix/lib/libtzofnadir.so" film.pgm >wrote 2>said
    saw=$?
    if [ "$saw" -eq 0 ]; then ok=yes; else ok=no; fi
    report "$ok" "the editions: 15 to the other's record, 30 on bytes, and the second program's numbers" "status $saw: $(cat wrote)$(tail -n 1 said)"
    python3 -B "$top/station/faults/plains.py" "$top/examples" "$prefix/lib/libtzofnadir.so" >wrote 2>said
    saw=$?
    if [ "$saw" -eq 0 ]; then ok=yes; else ok=no; fi
    report "$ok" "plain files over the library: the second program's answers, and refusals that keep all" "status $saw: $(cat wrote)$(tail -n 1 said)"
    python3 -B "$top/station/faults/directs.py" "$top/examples" "$prefix/lib/libtzofnadir.so" >wrote 2>said
    saw=$?
    if [ "$saw" -eq 0 ]; then ok=yes; else ok=no; fi
    report "$ok" "the plain engine over the library: enhance's picture, footer, scratch and answers, but for 11 and 17" "status $saw: $(cat wrote)$(tail -n 1 said)"
    python3 -B "$top/station/faults/arounds.py" "$top/examples" "$prefix/lib/libtzofnadir.so" >wrote 2>said
    saw=$?
    if [ "$saw" -eq 0 ]; then ok=yes; else ok=no; fi
    report "$ok" "a window around each pixel over the library: the second program's, in parts too, and refusals that keep all" "status $saw: $(cat wrote)$(tail -n 1 said)"
    python3 -B "$top/station/faults/threads.py" "$top/examples" "$prefix/lib/libtzofnadir.so" film.pgm >wrote 2>said
    saw=$?
    if [ "$saw" -eq 0 ]; then ok=yes; else ok=no; fi
    report "$ok" 'eight threads at once: each film as alone' "status $saw: $(tail -n 1 said)"
else
    skip 'examples/render.py: no python3 here, or no library for this machine (toolchain/library native makes it)'
fi
