#!/usr/bin/env bash
# Hosts in C and C++ against the headers: tests/host.c, which makes every call, and tests/host.cc compile without a
# warning in every language version from C99 to C17 and C++11 to C++17, and run; the archive has what the headers say.
# No call writes to what it is lent as const (tests/read_only.c).
#
# tests/hosts.sh        needs host/build/libzitskvoze.a (make -C host), gcc, g++; clang is tried too where it is
set -euo pipefail
cd "$(dirname "$0")/.."
library=host/build/libzitskvoze.a
fail() { echo "hosts: $*" >&2; exit 1; }
[ -e "$library" ] || { echo "$library is missing: run make -C host" >&2; exit 2; }
work=$(mktemp -d)
trap 'rm -rf "$work"' EXIT
warnings="-Wall -Wextra -Wpedantic -Wconversion -Werror -Iinclude"

# Every function of the headers is in the archive, and called by the host; no other name is exported.
sed -n 's/^[a-z_0-9 ]*[ *]\(zkv_[a-z_]*\)(.*/\1/p' include/zitskvoze.h include/zitskvoze_file.h | sort > "$work/said"
nm -g --defined-only "$library" | sed -n 's/^[0-9a-f]* T //p' | sort > "$work/there"
cmp -s "$work/said" "$work/there" || fail "headers and archive differ: $(diff "$work/said" "$work/there" | tr '\n' ' ')"
[ "$(wc -l < "$work/said")" -ge 40 ] || fail "the headers' functions were not found"
while read -r name; do
    grep -q "\b$name\b" tests/host.c || fail "tests/host.c does not call $name"
done < "$work/said"

built=0
# build_and_run COMPILER STANDARD SOURCE FLAGS..
build_and_run() {
    local compiler=$1 standard=$2 source=$3
    shift 3
    rm -f "$work/image" "$work/host"
    "$compiler" -std="$standard" $warnings "$@" -o "$work/host" "$source" "$library" || fail "$compiler -std=$standard $* $source"
    "$work/host" "$work/image" || fail "$compiler -std=$standard $* $source does not run as it should"
    built=$((built + 1))
}
for standard in c99 c11 c17 gnu99 gnu17; do
    build_and_run gcc "$standard" tests/host.c -O0
    build_and_run gcc "$standard" tests/host.c -O2
done
for standard in c++11 c++14 c++17; do
    build_and_run g++ "$standard" tests/host.cc -O0
    build_and_run g++ "$standard" tests/host.cc -O2
done
build_and_run gcc c99 tests/host.c -g -O1 -fsanitize=address,undefined -fno-sanitize-recover=all
if command -v clang > /dev/null; then
    build_and_run clang c99 tests/host.c -O2
    build_and_run clang c17 tests/host.c -O0
fi
# Every call that is lent something as const, with that in read-only pages.
sed -n 's/^[a-z_0-9 ]*[ *]\(zkv_[a-z_]*\)(.*const \(zkv_record \*record\|uint8_t \*image\),*.*/\1/p' include/zitskvoze.h > "$work/const"
[ "$(wc -l < "$work/const")" -ge 20 ] || fail "the header's calls that are lent something as const were not found"
while read -r name; do
    grep -q "\b\(MADE\|BEGUN\)($name\b" tests/read_only.c || fail "tests/read_only.c does not call $name"
done < "$work/const"
gcc -std=c11 $warnings -O2 -o "$work/read_only" tests/read_only.c "$library" || fail "tests/read_only.c does not compile"
"$work/read_only" || fail "tests/read_only.c does not run as it should"
# A header stands alone, and a warning is found: the flags reach the compiler.
for header in zitskvoze.h zitskvoze_file.h; do
    gcc -std=c99 $warnings -fsyntax-only -x c - <<< "#include <$header>" || fail "$header does not stand alone in C"
    g++ -std=c++11 $warnings -fsyntax-only -x c++ - <<< "#include <$header>" || fail "$header does not stand alone in C++"
done
if gcc -std=c99 $warnings -fsyntax-only -x c - <<< $'#include <zitskvoze.h>\nint f(uint64_t x);\nint f(uint64_t x) { return x; }' 2> /dev/null; then
    fail "a conversion that loses bits is not found"
fi
echo "hosts: $(wc -l < "$work/said") calls; $built builds of a host in C and one in C++, each without a warning, run"
