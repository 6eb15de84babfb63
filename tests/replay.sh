#!/bin/sh
# Compares the library with the model: scripts of calls, refusals, damaged images and power cuts are played on both, and
# the answers must be equal line by line. Twins run along (replay --twin): wherever nothing is staged or unfinished, the
# image is opened anew beside the station, and from then on both must answer and write alike. That comparison is first
# shown to find twins whose record has a wrong hint (replay_wrong).
# The model plays the changes that have landed (tests/landed.py). At the levels with cleanings the key table and entries
# of other chunks are altered between the steps of cleanings too. In every fourth script look-ups and lists stand
# between all the steps of stagings, commits and cleanings, which are taken one by one, by zkv_run, or by both.
#
# tests/replay.sh [FIRST [COUNT [TURNS [LEVEL...]]]]   seeds FIRST .. FIRST + COUNT - 1 (1, 100), scripts of TURNS turns
#                                                      (60), for each level: counter, centre, archive (all, if none is
#                                                      named)
#
# Needs host/build/replay and replay_wrong (make -C host) and Python 3. Stops at the first difference, shows it, and keeps
# the script and both outputs under host/build/differ/.
set -eu
cd "$(dirname "$0")/.."
first=${1:-1}
count=${2:-100}
turns=${3:-60}
[ $# -le 3 ] && set -- "$first" "$count" "$turns" counter centre archive
shift 3
work=$(mktemp -d)
trap 'rm -rf "$work"' EXIT
for p in replay replay_wrong; do
    [ -x host/build/$p ] || { echo "host/build/$p is missing: run make -C host" >&2; exit 2; }
done
python="$(python3 -c 'import sys; print(sys.executable)') -S -B"     # the interpreter itself, started quickly
cards=$($python tests/landed.py)
export python turns work cards

# One seed at the level $level; status 255 stops xargs.
cat > "$work/one" <<'END'
set -eu
at="$work/$1"
stopped() { echo "replay: $level, seed $1: $2" >&2; exit 255; }
$python tests/model/make_script.py "$1" "$turns" --level "$level" --cards "$cards" > "$at.script" || stopped "$1" "no script could be made"
$python tests/model/replay_model.py --cards "$cards" < "$at.script" > "$at.model" || stopped "$1" "the model stopped"
status=0
host/build/replay --twin < "$at.script" > "$at.replay" 2> "$at.twins" || status=$?
if [ "$status" -ne 0 ] || ! cmp -s "$at.model" "$at.replay"; then
    mkdir -p host/build/differ
    cp "$at.script" "$at.model" "$at.replay" host/build/differ/
    {
        echo "replay: $level, seed $1 differs (exit status $status). First lines that differ, model (<) and library (>):"
        diff "$at.model" "$at.replay" | head -6
        echo "script and outputs: host/build/differ/$1.script, $1.model, $1.replay"
    } >&2
    exit 255
fi
echo "$(wc -l < "$at.model") $(cat "$at.twins")" >> "$work/lines"
rm -f "$at.script" "$at.model" "$at.replay" "$at.twins"
END

$python tests/model/make_script.py "$first" "$turns" --level centre > "$work/wrong"
status=0
host/build/replay_wrong --twin < "$work/wrong" > "$work/found" 2> "$work/twins" || status=$?
if [ "$status" -ne 1 ] || ! grep -q '^twin$' "$work/found"; then
    echo "replay: twins with a wrong hint were not found" >&2
    exit 1
fi
echo "replay: twins with a wrong hint are found: $(grep -c '^twin$' "$work/found") answers unlike"

for level in "$@"; do
    export level
    rm -f "$work/lines"
    if ! seq "$first" $((first + count - 1)) | xargs -P "$(nproc)" -n 1 sh "$work/one" 2> "$work/errors"; then
        grep -v '^xargs:' "$work/errors" >&2
        exit 1
    fi
    set -- $(awk '{ n += $1; t += $2; c += $3; r += $4 } END { print n, t, c, r }' "$work/lines")
    [ "$2" -gt 0 ] || { echo "replay: $level: no twin was opened" >&2; exit 1; }
    [ "$4" -gt 0 ] || { echo "replay: $level: no look-up was answered in an unfinished call" >&2; exit 1; }
    echo "replay: $level: $count scripts (seeds $first to $((first + count - 1))), $1 answers, all equal," \
        "$4 of look-ups and lists in unfinished calls; $2 twins, $3 calls, all alike"
done
