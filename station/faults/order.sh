# shellcheck shell=sh disable=SC2154
# station/faults.sh reads this: the program's C has no circle. A file includes and calls those alone that stand behind it in
# station/sources.
order=$(cd "$top" && station/sources | sed 's|station/||g; s|\.c||g')
upward() { # of rows USER USED those that go against the order
    awk -v order="$order" '
        BEGIN { count = split(order, name); for (i = 1; i <= count; i++) place[name[i]] = i }
        $1 != $2 && place[$1] && place[$2] && place[$2] < place[$1] { print $1 ".c uses " $2 ".c" }' | sort -u
}
held_to_order() { # WHAT ROWS
    saw=$(upward <"$2" | head -n 3 | tr '\n' ' ')
    if [ -s "$2" ] && [ -z "$saw" ]; then ok=yes; else ok=no; fi
    report "$ok" "$1" "${saw:-$(sort -u "$2" | wc -l) uses}"
}
(cd "$top/station" && grep -H '^#include "' ./*.[ch]) | sed 's|^\./\([a-z0-9]*\)\.[ch]:#include "\(.*\)\.h"|\1 \2|' >uses
held_to_order 'each C file includes those behind it alone' uses
if command -v nm >/dev/null; then
    mkdir -p objects
    for source in $(cd "$top" && station/sources); do
        "$top/toolchain/compile" x86_64 "$top/$source" "objects/$(basename "$source" .c).o" -O1
    done
    (cd objects && nm -A ./*.o) | sed 's|^\./||; s|\.o:| |' | awk '
        $(NF - 1) == "U" { calls[$1 " " $NF] }
        $(NF - 1) ~ /^[A-Z]$/ && $(NF - 1) != "U" { owner[$NF] = $1 }
        END { for (call in calls) { split(call, part); if (part[2] in owner) print part[1], owner[part[2]] } }' >uses
    held_to_order 'each C file calls those behind it alone' uses
    rm -r objects uses
else
    skip 'the order of calls between C files: there is no nm here'
fi
