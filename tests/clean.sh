#!/usr/bin/env bash
# Cleaning by the program zkv: a register that is full of superseded labels takes new ones again, a put cleans when it
# must, a refused put leaves everything as it was, and puts and cleanings that are killed (kill -9) at random moments
# lose no label.
#
# tests/clean.sh [KILLS [SEED [PROGRAM]]]   16 kills, seed 1, host/build/zkv; needs host/build/cut_clean (make -C host)
set -euo pipefail
cd "$(dirname "$0")/.."
kills=${1:-16}
RANDOM=${2:-1}
zkv=$(realpath "${3:-host/build/zkv}") cut_clean=$PWD/host/build/cut_clean
for program in "$zkv" "$cut_clean"; do
    [ -x "$program" ] || { echo "$program is missing: run make -C host" >&2; exit 2; }
done
work=$(mktemp -d)
trap 'rm -rf "$work"' EXIT
cd "$work"
fail() { echo "clean: $*" >&2; exit 1; }
# status COMMAND...: its exit status, output to out and err.
status() { local s=0; "$@" > out 2> err || s=$?; echo "$s"; }
all_right() {
    [ "$("$zkv" check image)" = accepted ] || fail "$1: the image is refused"
    for file in now.*; do
        "$zkv" get image "${file#now.}" | cmp -s - "$file" || fail "$1: key ${file#now.} has other bytes"
    done
}
label() { head -c "$((RANDOM % 100 + 150))" /dev/urandom > next; }

# Filled with labels of six keys until no space is left.
"$zkv" format image 5
for ((n = 0; n < 400; n++)); do
    key=$((RANDOM % 6 + 1))
    label
    s=$(status "$zkv" put image "$key" next --no-clean)
    [ "$s" -eq 0 ] || break
    cp next "now.$key"
done
[ "$s" -eq 3 ] || fail "a put into a full register ends with $s"
grep -q 'refused 13: there is no space left' err || fail "a put into a full register says: $(cat err)"
cp image before
s=$(status "$zkv" put image 1 next --no-clean)
[ "$s" -eq 3 ] || fail "a second put into a full register ends with $s"
cmp -s image before || fail "a refused put changed the image"
all_right "full"
[ "$(status "$zkv" delete image 99)" -eq 1 ] || fail "a delete of an absent key in a full register does not end with 1"

# A put that cleans; then all of the rest.
"$zkv" put image 1 next || fail "a put that may clean is refused"
cp next now.1
all_right "after a put that cleaned"
if command -v script > /dev/null; then      # a terminal is told of each chunk
    cp image other
    script -qec "$zkv clean other" /dev/null > terminal < /dev/null || fail "clean on a terminal"
    grep -q 'zkv: other: chunk [1-9]: [0-9]* entries copied' terminal || fail "a terminal shows: $(cat terminal)"
fi
"$zkv" clean image > out 2> err || fail "clean"
[ ! -s err ] || fail "clean says without a terminal: $(cat err)"
grep -qx 'chunks cleaned [1-9][0-9]*' out || fail "nothing was cleaned: $(cat out)"
grep -qx 'free chunks 3' out || fail "six labels take more than one chunk: $(cat out)"
all_right "after clean"
"$zkv" clean image > out || fail "a second clean"
grep -qx 'chunks cleaned 0' out || fail "something was left to clean: $(cat out)"
for chunk in 0 5 504 18446744073709551615; do
    [ "$(status "$zkv" clean image "$chunk")" -eq 3 ] || fail "clean $chunk does not end with 3"
    grep -qF "zkv: image: chunk $chunk: refused 16" err || fail "clean $chunk says: $(cat err)"
done
[ "$(status "$zkv" clean image one)" -eq 2 ] || fail "clean one does not end with 2"
[ "$(status "$zkv" clean image 1 2)" -eq 2 ] || fail "clean 1 2 does not end with 2"
chunk=
for c in 1 2 3 4; do                        # the one chunk that is in use, by its name
    s=$(status "$zkv" clean image "$c")
    [ "$s" -ne 0 ] || { chunk=$c; break; }
    [ "$s" -eq 3 ] || fail "clean $c ends with $s"
done
[ -n "$chunk" ] || fail "no chunk can be cleaned by its name"
grep -qx 'entries copied 6' out || fail "chunk $chunk has the labels of six keys, and clean says: $(cat out)"
all_right "after clean of a chunk by its name"

# Full of present labels: no cleaning helps, and nothing is lost; a delete makes space again.
"$zkv" format full 4
for ((key = 1; key <= 64; key++)); do
    printf 'label %-42d' "$key" | "$zkv" put full "$key" -         # 48 bytes: an entry of one line
done
[ "$(status "$zkv" put full 65 next)" -eq 3 ] || fail "a 65th label of a line does not end with 3"
grep -q 'key 65: .* refused 13' err || fail "a register full of present labels says: $(cat err)"
for ((key = 1; key <= 64; key++)); do
    [ "$("$zkv" get full "$key")" = "$(printf 'label %-42d' "$key")" ] || fail "label $key is lost"
done
"$zkv" delete full 7
printf 'label 65' | "$zkv" put full 65 - || fail "a put after a delete"

# Chunks that held large labels, all of them deleted: a put takes them when it must, and clean frees them.
head -c 4088 /dev/urandom > large
"$zkv" format archive 12
for ((key = 1; key <= 8; key++)); do
    "$zkv" put archive "$key" large || fail "a large label $key"
done
for ((key = 1; key <= 8; key++)); do
    "$zkv" delete archive "$key"
done
cp archive cleaned
for ((key = 101; key <= 190; key++)); do
    printf 'label %-250d' "$key" | "$zkv" put archive "$key" - || fail "label $key after large ones that were deleted"
done
for ((key = 101; key <= 190; key++)); do printf '%d\tlabel %-249d\\x20\n' "$key" "$key"; done > labels
"$zkv" dump archive | cmp -s - labels || fail "labels are lost among freed chunks"
"$zkv" put cleaned 1 large
"$zkv" clean cleaned > out
grep -qx 'free chunks 9' out || fail "of 12 chunks with one large label 9 are free, and clean says: $(cat out)"
"$zkv" get cleaned 1 | cmp -s - large || fail "the large label is lost"
# A refused large label leaves as many chunks free as before, whether cleaning is allowed or not, alone and in a batch.
"$zkv" format small 4
printf '1\t%04088d\n2\t%04088d\n' 1 2 > list
for command in 'put small 1 large' 'put small 1 large --no-clean' 'load small list' 'load small list --no-clean'; do
    [ "$(status "$zkv" $command)" -eq 3 ] || fail "zkv $command, a large label in 4 chunks, does not end with 3"
    "$zkv" stat small | grep -qx 'free chunks 3' || fail "zkv $command is refused and leaves its chunk taken: $("$zkv" info small)"
done
printf 'label' | "$zkv" put small 2 - || fail "a small label after a large one that was refused"

# A cleaning cut just before the chunk is freed leaves no free chunk. What is put then goes on being put and deleted:
# a commit that took the place of the copies would have left the register stuck for good.
"$cut_clean" cut || fail "no image of a cleaning that was cut"
for ((key = 97; key <= 128; key++)); do printf '%d\tlabel %-41d\\x20\n' "$key" "$key"; done > list
for how in put 'put --no-clean' load; do
    cp cut stuck
    [ "$("$zkv" check stuck)" = accepted ] || fail "a cleaning that was cut: refused"
    for key in $([ "$how" = load ] || seq 97 128); do
        printf 'label %-42d' "$key" | "$zkv" put stuck "$key" - ${how#put} 2> err || [ "$how" != put ] ||
            fail "label $key after a cleaning that was cut: $(cat err)"
    done
    [ "$how" != load ] || "$zkv" load stuck list > /dev/null || fail "a load after a cleaning that was cut"
    printf 'print %-42d' 40 > label
    "$zkv" put stuck 40 label || fail "after a cleaning that was cut, and 32 labels by $how, a put is refused"
    "$zkv" delete stuck 41 || fail "after a cleaning that was cut, and 32 labels by $how, a delete is refused"
    "$zkv" get stuck 40 | cmp -s - label || fail "label 40 is another"
    [ "$("$zkv" check stuck)" = accepted ] || fail "after a cleaning that was cut, and 32 labels by $how: refused"
done

# A register that a host without that rule left stuck: nothing goes in it any more, and a copy has every label.
"$cut_clean" lost stuck || fail "no image of a stuck register"
"$zkv" digest lost > sum
cp lost before
for command in 'put lost 40 label' 'delete lost 41' 'clean lost 1'; do
    [ "$(status "$zkv" $command)" -eq 3 ] || fail "a stuck register: zkv $command does not end with 3: $(cat err)"
    cmp -s lost before || fail "a stuck register: zkv $command changed it"
done
"$zkv" copy lost larger 8 > /dev/null || fail "the labels of a stuck register cannot be copied"
"$zkv" check larger --against "$(cat sum)" > /dev/null || fail "the copy of a stuck register has other labels"
"$zkv" put larger 40 label || fail "a put into the copy of a stuck register is refused"

# As many keys as can be known, some of them deleted: a put and a load of new keys clean the deleted ones away.
"$zkv" format keys 504
seq 65536 | sed 's/$/\t/' | "$zkv" load keys - > /dev/null || fail "a load of 65,536 keys"
[ "$(status "$zkv" put keys 70000 next)" -eq 3 ] || fail "a key too many does not end with 3"
grep -q 'refused 7: .*deleted keys count .*clean' err || fail "a key too many says: $(cat err)"
for key in $(seq 20); do "$zkv" delete keys "$key"; done
[ "$(status "$zkv" put keys 70000 next --no-clean)" -eq 3 ] || fail "a put that may not clean does not end with 3"
"$zkv" put keys 70000 next || fail "a put that may clean deleted keys away is refused"
seq 70001 70019 | sed 's/$/\t/' > list
"$zkv" load keys list > /dev/null || fail "a load that may clean deleted keys away is refused"
[ "$(status "$zkv" put keys 70020 next)" -eq 3 ] || fail "a key too many after 20 new ones does not end with 3"
"$zkv" get keys 70000 | cmp -s - next || fail "key 70000 is lost"
"$zkv" list keys > out
grep -qx 'keys 65536' out || fail "there are not 65,536 labels: $(head -n 1 out)"
rm keys

# Puts and cleanings that are killed. Before each the register is nearly full, so that a put has to clean.
killed=0 cleaning=0
for ((n = 1; n <= kills; n++)); do
    for ((i = 0; i < 400; i++)); do
        key=$((RANDOM % 6 + 1))
        label
        "$zkv" put image "$key" next --no-clean 2> /dev/null || break
        cp next "now.$key"
    done
    key=$((RANDOM % 6 + 1))
    label
    if ((n % 2)); then
        "$zkv" put image "$key" next --pause 1500 2> /dev/null &
    else
        "$zkv" clean image --pause 1500 > /dev/null 2>&1 &
        cleaning=$((cleaning + 1))
    fi
    job=$!
    sleep "0.$((RANDOM % 4))$((RANDOM % 10))"
    kill -9 "$job" 2> /dev/null || true
    s=0
    wait "$job" 2> /dev/null || s=$?
    case $s in
    0) ;;
    137) killed=$((killed + 1)) ;;
    *) fail "number $n ended with status $s" ;;
    esac
    if ((n % 2)); then
        if "$zkv" get image "$key" | cmp -s - next; then
            cp next "now.$key"
        else
            [ "$s" -ne 0 ] || fail "put $n ended, and get does not show it"
        fi
    fi
    all_right "after number $n"
    "$zkv" clean image > /dev/null || fail "clean after number $n"
    all_right "after number $n and a clean"
done
[ "$killed" -ge $((kills / 4)) ] || fail "only $killed of $kills were killed in the middle: too little was tried"
echo "clean: filled, cleaned and filled again; $killed of $kills puts and cleanings killed in the middle ($cleaning cleanings tried); no label lost"
