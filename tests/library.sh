#!/usr/bin/env bash
# What the library has beside the proved calls (host/library.c, host/image_file.c), as hosts use it that have threads,
# signal handlers, several files, power cuts and altered memory: tests/files.c, tests/room.c, tests/altered.c and zkv.
# And look-ups while a call is unfinished, by a second thread too: tests/reprint.c; and the stack that calls take:
# tests/stack.c.
#
# tests/library.sh      needs host/build/libzitskvoze.a and zkv (make -C host), and gcc with its sanitizers
set -euo pipefail
cd "$(dirname "$0")/.."
fail() { echo "library: $*" >&2; exit 1; }
library=$PWD/host/build/libzitskvoze.a archive=$PWD/host/build/libregister.a zkv=$PWD/host/build/zkv
for needed in "$library" "$archive" "$zkv"; do
    [ -e "$needed" ] || { echo "$needed is missing: run make -C host" >&2; exit 2; }
done
work=$(mktemp -d)
trap 'rm -rf "$work"' EXIT
build() { gcc -std=c11 -g -O1 -Wall -Wextra -Wconversion -Werror -Iinclude -Ihost -pthread "$@"; }
safe="-fsanitize=address,undefined -fno-sanitize-recover=all"
# play TEST COMMAND..        in an empty folder
play() {
    local test=$1
    shift
    rm -rf "$work/folder"
    mkdir "$work/folder"
    (cd "$work/folder" && timeout 120 "$@" > "$work/out" 2>&1) || { cat "$work/out" >&2; fail "$test does not hold"; }
}

# Locks, waits, page faults, signals, names; then without data races, which the sanitizer finds where there is one.
build -o "$work/files" tests/files.c "$library"
build $safe -o "$work/files_safe" tests/files.c host/image_file.c host/library.c "$archive"
build -fsanitize=thread -o "$work/files_races" tests/files.c host/image_file.c host/library.c "$archive"
for test in locked failures waits faults signals forks names threads; do
    play "files $test" "$work/files" "$test"
done
for test in locked failures names threads; do
    play "files $test under sanitizers" "$work/files_safe" "$test"
done
# Where addresses are spread too wide for it, the sanitizer needs a process without that.
races=("$work/files_races")
play "files locked, as the sanitizer is to see it" bash -c '"$1" locked || setarch -R "$1" locked' - "$work/files_races"
! grep -q 'unexpected memory mapping' "$work/out" || races=(setarch -R "$work/files_races")
play "files threads without data races" "${races[@]}" threads
races=("${races[@]/files_races/reprint_races}")

# Look-ups between the steps of unfinished calls. The test is first shown to find that the new register is expected a
# report before the last fence, or only at the end.
for wrong in -1 1; do
    build -DWRONG="$wrong" -o "$work/reprint_wrong" tests/reprint.c "$library"
    for test in worked steps threads; do
        status=0
        timeout 120 "$work/reprint_wrong" "$test" > "$work/out" 2>&1 || status=$?
        [ "$status" -eq 1 ] && grep -q '^reprint: line [0-9]*: not so: .*, in a ' "$work/out" ||
            fail "reprint $test does not find that the register changes elsewhere than expected ($wrong): $(cat "$work/out")"
    done
done
build -o "$work/reprint" tests/reprint.c "$library"
build $safe -o "$work/reprint_safe" tests/reprint.c host/library.c "$archive"
build -fsanitize=thread -o "$work/reprint_races" tests/reprint.c host/library.c "$archive"
for test in worked formatting steps threads; do
    play "reprint $test" "$work/reprint" "$test"
    play "reprint $test under sanitizers" "$work/reprint_safe" "$test"
done
play "reprint threads without data races" "${races[@]}" threads
cat "$work/out"

# zkv leaves no file without its name where a signal ends it.
for signal in INT TERM HUP; do
    rm -rf "$work/folder"
    mkdir "$work/folder"
    (cd "$work/folder" && trap - INT && exec "$zkv" format labels.img 4 --pause 20000) &
    job=$!
    for ((i = 0; i < 500; i++)); do
        [ -z "$(ls "$work/folder")" ] || break
        sleep 0.01
    done
    [ -n "$(ls "$work/folder")" ] || fail "zkv format made no file"
    kill -s "$signal" "$job"
    status=0
    wait "$job" 2> /dev/null || status=$?
    [ "$status" -eq $((128 + $(kill -l "$signal"))) ] || fail "zkv format ended with $status at SIG$signal"
    [ -z "$(ls -A "$work/folder")" ] || fail "SIG$signal leaves $(ls -A "$work/folder")"
done

# A free chunk before each commit; lines past the image.
for test in room altered; do
    build $safe -o "$work/$test" "tests/$test.c" host/library.c "$archive"
    play "$test" "$work/$test"
    cat "$work/out"
done
# The stack that the header states.
build -o "$work/stack" tests/stack.c "$library"
play stack "$work/stack"
cat "$work/out"
echo "library: locks, waits, page faults, signals and names are as zitskvoze_file.h says, with threads too; look-ups in unfinished calls as zitskvoze.h says"
