#!/usr/bin/env bash
# The tour of the program zkv: format, put, get; then puts that are killed (kill -9) at random moments, each followed by
# a check of the image and a look at every key. Earlier keys must give their exact bytes, the key in flight its old or
# its new. A kill counts as a power cut: F9 of docs/ARCHITECTURE.md.
#
# tests/kill.sh [PUTS [SEED]]       30 puts, seed 1; needs host/build/zkv (make -C host)
set -euo pipefail
cd "$(dirname "$0")/.."
puts=${1:-30}
RANDOM=${2:-1}
zkv=$PWD/host/build/zkv
[ -x "$zkv" ] || { echo "host/build/zkv is missing: run make -C host" >&2; exit 2; }
work=$(mktemp -d)
trap 'rm -rf "$work"' EXIT
cd "$work"
fail() { echo "kill: $*" >&2; exit 1; }

# Format, put, get.
"$zkv" format image 64 --station 7 || fail "format"
for key in 1 2 3 4 5 6; do
    printf 'label %d, first print ^ \\ \n' "$key" > "now.$key"
    "$zkv" put image "$key" "now.$key" || fail "put $key"
    "$zkv" get image "$key" | cmp - "now.$key" || fail "get $key"
done
status=0
"$zkv" get image 99 2> /dev/null || status=$?
[ "$status" -eq 1 ] || fail "key 99 was never put, and get says $status"
"$zkv" delete image 6 || fail "delete"
rm now.6

# Puts that are killed.
killed=0 old=0 new=0
for ((n = 1; n <= puts; n++)); do
    key=$((RANDOM % 9 + 1))
    length=$((RANDOM % 257))
    head -c "$length" /dev/urandom > next
    "$zkv" put image "$key" next --pause 2000 &
    job=$!
    sleep "0.0$((RANDOM % 80 + 10))"
    kill -9 "$job" 2> /dev/null || true
    status=0
    wait "$job" 2> /dev/null || status=$?
    case $status in
    0) ;;
    137) killed=$((killed + 1)) ;;
    *) fail "put $n ended with status $status" ;;
    esac
    [ "$("$zkv" check image)" = accepted ] || fail "after put $n of key $key the image is refused"
    got=0
    "$zkv" get image "$key" > got 2> /dev/null || got=$?
    if [ "$got" -eq 0 ] && cmp -s got next; then
        new=$((new + 1))
        cp next "now.$key"
    elif [ "$status" -eq 0 ]; then
        fail "put $n of key $key ended, and get does not show it"
    elif [ -e "now.$key" ]; then
        [ "$got" -eq 0 ] && cmp -s got "now.$key" || fail "put $n of key $key was killed: neither old nor new bytes"
        old=$((old + 1))
    else
        [ "$got" -eq 1 ] || fail "put $n of key $key was killed: neither absent nor new"
        old=$((old + 1))
    fi
    for file in now.*; do
        "$zkv" get image "${file#now.}" | cmp - "$file" || fail "after put $n, key ${file#now.} has other bytes"
    done
done
[ "$killed" -ge $((puts / 4)) ] || fail "only $killed of $puts puts were killed in the middle: too little was tried"
"$zkv" stat image
echo "kill: $puts puts, $killed killed in the middle; $old then show the old and $new the new value; every image accepted"
