#!/usr/bin/env bash
# The smallest host: what the README shows of it is in it, its labels come back, and a refusal ends it with a message.
#
# tests/hello.sh [PROGRAM]          host/build/hello (make -C host)
set -euo pipefail
cd "$(dirname "$0")/.."
hello=${1:-host/build/hello}
fail() { echo "hello: $*" >&2; exit 1; }
lines=0
while IFS= read -r line; do
    line=${line#"${line%%[! ]*}"}
    [ -z "$line" ] || grep -qF -- "$line" host/hello.c || fail "the README shows '$line', which host/hello.c does not have"
    lines=$((lines + 1))
done < <(sed -n '/The heart of `host\/hello.c`:/,/^A label that was refused/p' README.md | grep '^    ')
[ "$lines" -ge 14 ] || fail "the README's host was not found"
[ "$("$hello")" = "A+ 450 ml" ] || fail "the label does not come back"
[ "$("$hello" 800 | grep -cx 'A+ 450 ml')" = 800 ] || fail "800 labels do not come back"
status=0
timeout 20 "$hello" 1000 > /dev/null 2> host/build/hello.err || status=$?
[ "$status" -eq 1 ] || fail "1,000 labels do not fit, and it ends with $status"
grep -q '^refused 13: ' host/build/hello.err || fail "1,000 labels do not fit, and it does not say so"
echo "hello: its labels come back, and a refusal ends it"
