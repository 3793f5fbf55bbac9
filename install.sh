#!/bin/sh
# Proves and builds the program and the library, and puts them under PREFIX:
#     ./install.sh PREFIX
# Needs rt, and cc to link the shared library. Under PREFIX come
#     bin/malligovu  include/malligovu.h  lib/libmalligovu.a  lib/libmalligovu.so  lib/pkgconfig/malligovu.pc
#     share/man/man1/malligovu.1  share/man/man3/malligovu.3, and a page for each call that leads there
# Every file is copied beside its place before the first is renamed into it: where a copy fails, PREFIX is left as it was.
# To uninstall, remove the files: the last line that is printed is the command. No file says where it was put, so the folder may be moved.
set -u
umask 022

fail() {
    echo "install.sh: $1" >&2
    exit 1
}

[ $# -eq 1 ] && [ -n "$1" ] || fail "usage: ./install.sh PREFIX, the folder that gets bin/, include/, lib/ and share/man/"
case $1 in
-* | *=* | *"'"*) fail "usage: ./install.sh PREFIX, the folder that gets bin/, include/, lib/ and share/man/; $1 is no name for it" ;;
/*) prefix=$1 ;;
*) here=$(pwd -P 2>/dev/null) && [ -n "$here" ] || fail "the working folder is gone"
    prefix=$here/$1 ;;
esac
while [ "${prefix%/}" != "$prefix" ]; do prefix=${prefix%/}; done
cd "$(dirname "$0")" || exit 1
command -v rt >/dev/null || fail "rt, the command of the Rattle kit, is not found: it proves and builds what is installed"
command -v cc >/dev/null || fail "cc, a C compiler, is not found: it links the shared library"
[ "$(cd "$prefix/" 2>/dev/null && pwd -P)" != "$(pwd -P)" ] || fail "PREFIX is the source folder itself"

# before minutes of proofs: whether the nearest folder that is there can be written
folder=$prefix/
while [ ! -e "$folder" ]; do folder=$(dirname "$folder"); done
[ -d "$folder" ] || fail "$folder is no folder"
[ -w "$folder" ] && [ -x "$folder" ] || fail "$folder can't be written"
[ -w crates/malligovu ] && [ -w crates/export_c ] || fail "the source folder can't be written, and rt builds in its crates' out/"

build=$(mktemp -d) || fail "there is no temporary folder"
staged=$build/staged
trap 'rm -rf "$build"' EXIT
trap 'exit 1' HUP INT TERM

built() { # FOLDER COMMAND..
    at=$1
    shift
    (cd "$at" && "$@") </dev/null >"$build/log" 2>&1 || { cat "$build/log" >&2; fail "this failed in $at, and nothing is installed: $*"; }
}

stage() { # FILE PLACE MODE
    mkdir -p "$(dirname "$staged/$2")" && cp "$1" "$staged/$2" && chmod "$3" "$staged/$2" || fail "$1 can't be copied, and nothing is installed"
}

echo "proving and building, which takes minutes the first time"
# rt run builds the program and runs it, here on an empty input, which it answers with a line
built crates/malligovu rt run
built crates/export_c rt lib
program=crates/malligovu/out/malligovu library=crates/export_c/out/libexport_c.a
built . cc -shared -Wl,-soname,libmalligovu.so -Wl,-z,defs -Wl,--whole-archive "$library" -Wl,--no-whole-archive -o "$build/libmalligovu.so"
cat >"$build/malligovu.pc" <<END
prefix=\${pcfiledir}/../..
includedir=\${prefix}/include
libdir=\${prefix}/lib

Name: malligovu
Description: Encode, read and soft-decode BCH words of 15, 31 and 63 bits
Version: $(sed -n 's/^#define MALLIGOVU_VERSION //p' include/malligovu.h)
Cflags: -I\${includedir}
Libs: -L\${libdir} -lmalligovu
END
echo ".so man3/malligovu.3" >"$build/call.3"
stage "$program" bin/malligovu 755
stage include/malligovu.h include/malligovu.h 644
stage "$library" lib/libmalligovu.a 644
stage "$build/libmalligovu.so" lib/libmalligovu.so 755
stage "$build/malligovu.pc" lib/pkgconfig/malligovu.pc 644
stage man/malligovu.1 share/man/man1/malligovu.1 644
stage man/malligovu.3 share/man/man3/malligovu.3 644
for call in encode read fault decode; do stage "$build/call.3" "share/man/man3/malligovu_$call.3" 644; done
files=$(cd "$staged" && find . -type f | sed 's,^\./,,' | sort)

# takes away what was copied and the folders that were made, the innermost first
undo() {
    for file in $files; do rm -f "$prefix/$file.new"; done
    [ ! -e "$build/made" ] || sort -r "$build/made" | while read -r folder; do rmdir "$folder" 2>/dev/null; done
    fail "$1; nothing is installed"
}

make_folder() { # NAME
    [ -d "$1" ] && return
    make_folder "$(dirname "$1")" && mkdir "$1" 2>/dev/null && echo "$1" >>"$build/made"
}

# whether a file that is there may be replaced: in a folder with the sticky bit only by its owner or the folder's
replaceable() { # FILE FOLDER
    [ ! -e "$1" ] || [ ! -k "$2" ] || [ -O "$1" ] || [ -O "$2" ] || [ "$(id -u)" -eq 0 ]
}

trap 'undo "interrupted"' HUP INT TERM
for file in $files; do
    place=$prefix/$file folder=$(dirname "$prefix/$file")
    make_folder "$folder" || undo "$folder can't be made"
    [ ! -d "$place" ] || undo "$place is a folder"
    [ ! -d "$place.new" ] || undo "$place.new is a folder"
    replaceable "$place" "$folder" || undo "$place is another user's"
    cp -p "$staged/$file" "$place.new" 2>/dev/null || undo "$folder can't be written"
done
trap '' HUP INT TERM
for file in $files; do
    mv -f "$prefix/$file.new" "$prefix/$file" || fail "$prefix/$file can't be replaced: some of the files are new and some old; run it again"
done
echo "installed under $prefix"
# a variable with a folder of PREFIX before what it has
before() { # FOLDER VARIABLE
    printf '%s' " $2='$prefix/$1'\"\${$2:+:\$$2}\""
}
[ "$prefix" = /usr ] || echo "to use it there: export$(before bin PATH)$(before lib/pkgconfig PKG_CONFIG_PATH)$(before lib LD_LIBRARY_PATH)"
echo "to uninstall: cd '$prefix/' && rm" $files
