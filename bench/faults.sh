#!/bin/sh
# Runs the program where reads and writes fail, fall short or are not ready, and counts the runs that do not go as man/malligovu.1 says:
#     bench/faults.sh [PROGRAM]    the built program, or another one by its path
# Needs rt, gcc and rustc. What it builds goes to a temporary folder.
set -e
program=$(realpath "${1:-/dev/null}")
cd "$(dirname "$0")/.."
build=$(mktemp -d)
trap 'rm -rf "$build"' EXIT

if [ -z "$1" ]; then
    (cd crates/malligovu && rt run) </dev/null >"$build/log" 2>&1 || { cat "$build/log"; exit 1; }
    program=crates/malligovu/out/malligovu
fi
gcc -O2 -Wall -Wextra -shared -fPIC -o "$build/fault.so" bench/fault.c
rustc -O --edition 2021 -o "$build/faults" bench/faults.rs
"$build/faults" "$program" "$build/fault.so" crates/malligovu/stdin crates/malligovu/stdout
