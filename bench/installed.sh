#!/bin/sh
# Installs into a temporary folder and tries what is there as a user would, with the variables that install.sh prints: host.c from another
# folder by pkg-config alone, in C and in C++, shared and static, and host.py; the program on its example, with an argument, and split over
# all cores; the manual; the folder moved; what install.sh says where it can't; and that no file is left when it is uninstalled.
#     bench/installed.sh
# Needs rt, cc, c++, pkg-config and python3. What needs mandoc, GNU parallel or another user is left out where that is missing, and said.
cd "$(dirname "$0")/.." || exit 1
root=$PWD build=$(mktemp -d) tried=0 bad=0
trap 'rm -rf "$build"' EXIT
chmod 755 "$build"

report() { # WHAT STATUS
    tried=$((tried + 1))
    [ "$2" -eq 0 ] && echo "ok      $1" || { bad=$((bad + 1)); echo "WRONG   $1"; }
}

try() { # WHAT COMMAND..
    what=$1
    shift
    "$@" >"$build/out" 2>&1
    report "$what" $?
}

# an install that can't be: it fails with one line that says why, and makes nothing
refused() { # WHAT WORDS FOLDER COMMAND..
    what=$1 words=$2 folder=$3
    shift 3
    ! "$@" 2>"$build/out" >/dev/null && [ "$(wc -l <"$build/out")" -eq 1 ] && grep -q "$words" "$build/out" && [ ! -e "$folder" ]
    status=$?
    report "$what: $(cat "$build/out")" $status
}

echo "== install.sh where it can't"
refused "no prefix" "usage" "$build/none" ./install.sh
refused "two" "usage" "$build/none" ./install.sh "$build/none" "$build/more"
refused "an option" "usage" "$build/none" ./install.sh --help
touch "$build/file"
refused "under a file" "is no folder" "$build/file/here" ./install.sh "$build/file/here"
refused "in /proc" "can't be" /proc/malligovu ./install.sh /proc/malligovu
refused "the source folder" "source folder itself" "$root/bin" ./install.sh .
mkdir "$build/tools" && for tool in sh dirname mktemp cc; do ln -s "$(command -v $tool)" "$build/tools/"; done
refused "no rt" "rt, the command" "$build/none" env PATH="$build/tools" ./install.sh "$build/none"
if [ "$(id -u)" -eq 0 ] && setpriv --reuid=65534 --clear-groups test -x . 2>/dev/null; then
    mkdir "$build/closed"
    refused "a folder of another user's" "closed/ can't be written" "$build/closed/bin" \
        setpriv --reuid=65534 --clear-groups env PATH="$PATH" ./install.sh "$build/closed"
else
    echo "left out: a folder of another user's"
fi
mkdir -p "$build/half/lib/libmalligovu.so"
refused "a folder in a file's place" "is a folder" "$build/half/bin" ./install.sh "$build/half"
[ "$(find "$build/half" | wc -l)" -eq 3 ]
report "nothing is left of it" $?

echo "== install.sh"
prefix=$build/first
./install.sh "$prefix" >"$build/said" || { report "install" 1; exit 1; }
(cd "$prefix" && find . -type f | sort)
./install.sh "$prefix" >"$build/said"
report "again, over itself" $?

echo "== a host, from another folder, by pkg-config alone"
eval "$(sed -n 's/^to use it there: //p' "$build/said")"
mkdir "$build/elsewhere" && cp examples/host.c examples/host.py "$build/elsewhere/" && cd "$build/elsewhere" || exit 1
cp host.c host.cc
try "C, shared" cc -Wall -Wextra -o shared host.c $(pkg-config --cflags --libs malligovu)
try "C, static" cc -Wall -Wextra -static -o static host.c $(pkg-config --cflags --static --libs malligovu)
try "C++, shared" c++ -Wall -Wextra -o shared++ host.cc $(pkg-config --cflags --libs malligovu)
try "C++, static" c++ -Wall -Wextra -static -o static++ host.cc $(pkg-config --cflags --static --libs malligovu)
./shared >want
report "it runs:" $?
cat want
for host in static shared++ static++; do
    ./$host >got && cmp -s want got
    report "$host prints the same" $?
done
python3 host.py >got && cmp -s want got
report "host.py prints the same" $?

echo "== the program"
cases=$root/crates/malligovu
malligovu <"$cases/stdin" >got && cmp -s "$cases/stdout" got
report "its stored input" $?
malligovu --help <"$cases/stdin" >got 2>said && [ ! -s got ] && grep -q usage said
status=$?
report "with an argument: $(head -n 1 said)" $status
if command -v parallel >/dev/null; then
    { head -n 1 "$cases/stdin"; for _ in $(seq 200); do tail -n +2 "$cases/stdin"; echo; done; } >input
    malligovu <input >answers && parallel --pipe --header : -k malligovu <input >got 2>said && cmp -s answers got
    status=$?
    report "GNU parallel over $(nproc) cores, $(wc -c <input) bytes: as one run" $status
else
    echo "left out: GNU parallel"
fi

echo "== the manual"
if command -v mandoc >/dev/null; then
    mandoc -T lint "$prefix/share/man/man1/malligovu.1" "$prefix/share/man/man3/malligovu.3"
    report "mandoc -T lint" $?
else
    echo "left out: mandoc"
fi

echo "== moved, and uninstalled"
mv "$prefix" "$build/moved" && PKG_CONFIG_PATH=$build/moved/lib/pkgconfig LD_LIBRARY_PATH=$build/moved/lib
cc -o moved host.c $(pkg-config --cflags --libs malligovu) && ./moved >got && cmp -s want got
report "a host finds it where it is moved" $?
cd "$build" && mv "$build/moved" "$prefix" && sh -c "$(sed -n 's/^to uninstall: //p' "$build/said")" && [ -z "$(find "$prefix" -type f)" ]
report "no file is left" $?
echo "$tried tried, $bad wrong"
[ $bad -eq 0 ]
