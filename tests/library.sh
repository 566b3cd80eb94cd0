#!/usr/bin/env bash
# Tests libfarmap from outside: the program farcalls over pipes, the calls for C with both ways to hand over, random calls against
# oracles, attacks, sanitizers, two libraries in one process, the crate for Rust, and the package for Python.
#
#     library.sh            two minutes, and the build
#     library.sh --long     ten minutes, and ten million random calls
#
# The status is 1 where something is not as it should be, and 77 where there is no C compiler. What else is missing, as a
# C++ compiler or cargo, is said by name, and left out.
set -euo pipefail

long=0
if [ "${1:-}" = --long ]; then long=1; fi
root=$(cd "$(dirname "$(readlink -f "${BASH_SOURCE[0]}")")/.." && pwd)
if ! command -v cc >/dev/null; then
    echo 'skipped: libfarmap (no C compiler cc)'
    exit 77
fi
work=$(mktemp -d)
trap 'rm -rf "$work"' EXIT
failed=0

# Runs something for some seconds at most. Its output is shown if it fails.
try() {
    local seconds=$1
    shift
    if ! timeout "$seconds" "$@" >"$work/out" 2>&1; then
        echo "library.sh: failed: $*"
        tail -n 20 "$work/out"
        failed=1
    fi
}

switch=$("$root/bin/build" library)
handshake=$switch
if [ $long = 1 ]; then handshake=$(FARMAP_HANDOVER=handshake "$root/bin/build" library); fi
program=$("$root/bin/build" farcalls)
tests=$root/library/tests

# Compiles a test of C with these words, against a build of the library.
compile() {
    local name=$1 source=$2 prefix=$3
    shift 3
    cc -O1 -g -Wall -Wextra -Werror "$@" -I"$prefix/include" "$tests/$source.c" -o "$work/$name" "$prefix/lib/libfarmap.a" -pthread
}

try 300 /usr/bin/python3 -BE "$root/tests/library_pipes.py" "$program"

# Nothing but the names of farmap.h can be seen, and the shared library loads.
names=$(nm -D --defined-only "$switch/lib/libfarmap.so" | awk '$3 !~ /^farmap_/ { print $3 }')
if [ -n "$names" ]; then
    echo "library.sh: libfarmap.so has other names than those of farmap.h: $names"
    failed=1
fi

# Each way to hand calls over, with random calls whose answers are compared with those of a map of one thread. The calls are fewer
# in the short run.
try_way() {
    local calls=$1
    shift
    try 60 "$work/calls" "$@"
    try 60 "$work/calls" "$@" "$work"
    try 120 "$work/oracle" 8 "$calls" "$@" "$work"
    try 120 "$work/oracle" 8 "$calls" "$@"
    # A map that is renewed, and one that is also larger than its memory.
    try 120 "$work/oracle" 4 "$calls" "$@" names="$((calls + 400))" memory=16000000 pairs="$((calls / 20))" "$work"
    try 300 "$work/oracle" 8 "$((calls / 2))" "$@" names="$((calls * 2))" memory=16000000 pairs="$((calls / 10))" longest=6000 keys=1000 seed=3 "$work"
    for attack in "${attacks[@]}"; do
        try 120 "$work/attacks" "$attack" "$@" "$work"
    done
    try 120 "$work/refuses" memory "$@" "$work"
}

# The programs of the tests, against a build of the library.
compile_all() {
    compile calls calls "$1"
    compile oracle oracle "$1"
    compile attacks attacks "$1"
    compile refuses attacks "$1" -DREFUSES
}

if [ $long = 1 ]; then
    attacks=(busy fork signals closing cancel host threads space)
    compile_all "$switch"
    try_way 20000
    try_way 20000 handshake
    compile_all "$handshake"
    try_way 20000
    # The host is built with a sanitizer; the library is not.
    for sanitizer in address,undefined thread; do
        if ! echo 'int main(void) { return 0; }' | cc -fsanitize=$sanitizer -x c - -o "$work/none" 2>/dev/null || ! "$work/none"; then
            echo "skipped: libfarmap under -fsanitize=$sanitizer (cc can't build or run with it)"
            continue
        fi
        compile calls calls "$switch" -fsanitize=$sanitizer
        compile oracle oracle "$switch" -fsanitize=$sanitizer
        for way in '' handshake; do
            export TSAN_OPTIONS=ignore_noninstrumented_modules=1
            try 120 "$work/calls" $way "$work"
            try 120 "$work/oracle" 4 3000 $way names=3400 memory=16000000 pairs=150 "$work"
        done
    done
else
    attacks=(busy fork closing host)
    compile_all "$switch"
    try_way 3000
fi

cc -O1 -Wall -I"$switch/include" "$tests/two.c" -o "$work/two" -ldl
# The other build of --long, or a copy of the one build.
cp "$handshake/lib/libfarmap.so" "$work/other.so"
try 60 "$work/two" "$switch/lib/libfarmap.so" "$work/other.so"
if command -v c++ >/dev/null; then
    c++ -std=c++17 -O1 -Wall -I"$switch/include" "$tests/exceptions.cc" -o "$work/exceptions" "$switch/lib/libfarmap.a" -pthread
    try 60 "$work/exceptions"
    try 60 "$work/exceptions" handshake
else
    echo 'skipped: exceptions of C++ (no C++ compiler c++)'
fi

# The same program in three languages.
for file in 1 2 3 4 5; do
    seq 1 3000 | awk -v file=$file '{ print "https://example.org/" ($1 * $1 * file) % 317 }' >"$work/urls$file"
done
cat "$work"/urls? | sort | uniq -c | LC_ALL=C sort -k1,1nr -k2 | awk 'NR <= 10 { print $1, $2 }' >"$work/wanted"
cc -O2 -Wall -I"$switch/include" "$root/library/examples/visits.c" -o "$work/visits" "$switch/lib/libfarmap.a" -pthread
try 60 sh -c '"$1/visits" "$1" "$1"/urls? | LC_ALL=C sort -k1,1nr -k2 | cmp - "$1/wanted"' - "$work"
export FARMAP_PREFIX=$switch
if [ $long = 0 ]; then
    echo "(the crate of libfarmap: with --long only)"
elif command -v cargo >/dev/null; then
    export CARGO_TARGET_DIR=$work/target
    manifest=$root/library/rust/Cargo.toml
    try 600 cargo test --offline --quiet --manifest-path "$manifest"
    try 300 sh -c 'cargo run --offline --quiet --manifest-path "$2" --example visits -- "$1" "$1"/urls? | LC_ALL=C sort -k1,1nr -k2 | cmp - "$1/wanted"' - "$work" "$manifest"
    try 300 env RUSTDOCFLAGS=-Dwarnings cargo doc --offline --quiet --no-deps --manifest-path "$manifest"
else
    echo 'skipped: the crate of libfarmap (no cargo)'
fi
if [ $long = 1 ] && /usr/bin/python3 -m pip --version >/dev/null 2>&1; then
    cp -r "$root/library/python" "$work/package"
    try 120 /usr/bin/python3 -m pip install --no-index --quiet --target "$work/python" "$work/package"
    export PYTHONPATH=$work/python
else
    if [ $long = 1 ]; then echo 'skipped: pip install of libfarmap (no pip)'; fi
    export PYTHONPATH=$root/library/python/src FARMAP_LIBRARY=$switch/lib/libfarmap.so
fi
try 300 /usr/bin/python3 -B "$root/library/python/tests/test_farmap.py"
try 120 sh -c '/usr/bin/python3 -B "$2" "$1" "$1"/urls? | LC_ALL=C sort -k1,1nr -k2 | cmp - "$1/wanted"' - "$work" "$root/library/python/examples/visits.py"

if [ $long = 1 ]; then
    compile oracle oracle "$switch"
    try 1800 "$work/oracle" 8 1000000 seed=7 "$work"
    try 1800 "$work/oracle" 8 250000 seed=8 names=200000 memory=24000000 pairs=4000 longest=3000 keys=2000 "$work"
fi
[ $failed = 0 ] && echo 'library.sh: all as it should be'
exit $failed
