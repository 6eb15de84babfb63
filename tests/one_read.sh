#!/bin/sh
# The begin of a cleaning reads each word of its chunk at most once, from the first to the last (tests/one_read.c). First
# shown to find a second reading.
#
# tests/one_read.sh [ARCHIVE]       host/build/libregister.a if none is named; needs gcc
set -eu
cd "$(dirname "$0")/.."
archive=${1:-host/build/libregister.a}
[ -f "$archive" ] || { echo "$archive is missing: run make -C host archive" >&2; exit 2; }
work=$(mktemp -d)
trap 'rm -rf "$work"' EXIT
build() { gcc -std=c11 -O2 -fno-builtin -Wall -Wextra -Werror -Iinclude "$@" tests/one_read.c "$archive"; }
build -DTWICE -o "$work/twice"
status=0
"$work/twice" > "$work/out" 2>&1 || status=$?
[ "$status" -eq 1 ] || { cat "$work/out" >&2; echo "one_read: a second reading was not found" >&2; exit 1; }
build -o "$work/one_read"
"$work/one_read"
