#!/bin/sh
# Holds the calls that C hosts link against another implementation, and measures them:
#     bench/run.sh                   compare, run the example, print instructions and time beside plain C, entered patterns and stack
#     bench/run.sh picture [WORDS]   draw docs/word-error-rate.svg and print the tables of docs/ORDERS.md, with this many words a point (1000000)
# Needs rt, gcc with binutils, and rustc; valgrind for the instructions and the entered patterns, and GNU time for the program's memory: these are
# left out where they are missing. What it builds goes to a temporary folder. It fails where an answer differs.
set -e
cd "$(dirname "$0")/.."
library=crates/export_c/out/libexport_c.a
malligovu=crates/malligovu/out/malligovu
build=$(mktemp -d)
trap 'rm -rf "$build"' EXIT

proved() { (cd "$1" && rt "$2") </dev/null >"$build/log" 2>&1 || { cat "$build/log"; exit 1; }; } # FOLDER VERB
rust() { name=$1; shift; rustc -O --edition 2021 -o "$build/$name" "bench/$name.rs" -L native="$(dirname "$library")" -l static=export_c "$@"; }
c() { gcc -O2 -Wall -Wextra -I include -o "$build/$1" "$2" "$library"; }
# the two versions of bench/plain.c. Functions are aligned, or their time would hang on what they are linked with
plain() {
    gcc -O3 -falign-functions=64 -Wall -Wextra -c -o "$build/plain.o" bench/plain.c
    gcc -O3 -falign-functions=64 -Wall -Wextra -DSTRAIGHT -Dplain_start=straight_start -Dplain_decode=straight_decode -c -o "$build/straight.o" bench/plain.c
}

proved crates/export_c lib
if [ "$1" = picture ]; then
    rust picture
    "$build/picture" "${2:-1000000}" docs/word-error-rate.svg
    exit
fi

rust compare && plain && rust cost -C link-arg="$build/plain.o" -C link-arg="$build/straight.o" && rust program && c host examples/host.c && c stack bench/stack.c

echo "== the calls and bench/reference.rs"
"$build/compare"

echo "== examples/host.c"
"$build/host"

echo "== the calls and plain C (bench/plain.c, the better of its two versions) at 4 dB: instructions (callgrind: the same from run to run) on 64"
echo "   words a code, time on fresh words"
failed=0
if command -v valgrind >/dev/null; then
    env -i "$(command -v valgrind)" --tool=callgrind --toggle-collect='malligovu_*' --toggle-collect=plain_decode --toggle-collect=straight_decode \
        --dump-before=mark_begin --dump-after=mark_end --callgrind-out-file="$build/counts" "$build/cost" count >"$build/log" 2>&1 || { cat "$build/log"; exit 1; }
    "$build/cost" "$build/counts" || failed=1
else
    echo "valgrind is not here: time alone"
    "$build/cost" || failed=1
fi

echo "== the program, m = 6, t = 3, order 0, 10,000 words"
proved crates/malligovu run
"$build/program" lines >"$build/lines"
counted() {
    env -i "$(command -v valgrind)" --tool=callgrind --callgrind-out-file="$build/whole" "$@" >/dev/null 2>&1
    sed -n 's/^\(totals\|summary\): //p' "$build/whole" | head -n 1
}
if command -v valgrind >/dev/null; then
    whole=$(counted "$malligovu" <"$build/lines")
    calls=$(counted --toggle-collect=malligovu_decode "$build/program" decodes)
    echo "instructions a word: program $((whole / 10000)), its decode calls $((calls / 10000)), $(((whole * 100 + calls / 2) / calls)) in 100"
    for header in '6 3 0 1' '6 3 0'; do
        sed "1s/.*/$header/" "$build/lines" >"$build/other"
        awk 'NR > 1 { for (i = 1; i <= NF; i++) $i = $i < 0 ? -48 : 48 } 1' "$build/other" >"$build/sliced"
        other=$(counted "$malligovu" <"$build/other") sliced=$(counted "$malligovu" <"$build/sliced")
        echo "and under the header $header: $((other / 10000)); hard-sliced, all values 48 or -48: $((sliced / 10000))"
    done
fi
if [ -x /usr/bin/time ]; then
    /usr/bin/time -f "%e seconds, %M KB at most" "$malligovu" <"$build/lines" >/dev/null
fi

echo "== stack, and what is linked"
LD_BIND_NOW=1 "$build/stack"
bytes=$(size -t "$library" | awk 'END { print $1 + $2 }')
echo "code and tables: $bytes bytes; from the C library: $(nm -u "$library" | awk '/ U / { print $2 }' | xargs)"
[ "$failed" = 0 ] || echo "failed: the calls and plain C"
exit "$failed"
