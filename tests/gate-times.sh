#!/usr/bin/env bash
# What the must-fail edits of each crate cost the gate, worst first: seconds, edits, seconds for each. `rt ci` tells no
# times: here each crate is checked first, and then its edits are tried anew, one by one (RT_JOBS: more at a time).
#
# tests/gate-times.sh [CRATE..]     these crates, or all that have edits
# Marked: '>40 s' where an edit takes longer than it may, '>5 edits' where a crate has more than it may.
set -euo pipefail
cd "$(dirname "${BASH_SOURCE[0]}")/.."
[ "${1:-}" != --help ] || { sed -n '2,6p' "$0"; exit 0; }
crates=("$@")
[ ${#crates[@]} -gt 0 ] || crates=($(ls -d crates/*/must-fail | cut -d / -f 2))
export RT_JOBS=${RT_JOBS:-1}
work=$(mktemp -d)
trap 'rm -rf "$work"' EXIT
for c in "${crates[@]}"; do
    edits=$(find "crates/$c/must-fail" -maxdepth 1 -name '*.edit' | wc -l)
    [ "$edits" -gt 0 ] || { echo "gate-times: $c has no edits" >&2; exit 2; }
    (cd "crates/$c" && rt check) > "$work/log" 2>&1 || { tail -n 20 "$work/log" >&2; exit 1; }
    begin=$(date +%s)
    rt must-fail --anew "$c" > "$work/log" 2>&1 || { tail -n 20 "$work/log" >&2; exit 1; }
    echo "$(($(date +%s) - begin)) $edits $c"
done > "$work/times"
LC_ALL=C sort -k1,1nr -k3 "$work/times" | awk '
    BEGIN { printf "%8s %6s %8s  %s\n", "edits s", "edits", "each s", "crate" }
    {
        note = ""
        if ($1 / $2 > 40) note = note "  >40 s"
        if ($2 > 5) note = note "  >5 edits"
        printf "%8d %6d %8.1f  %s%s\n", $1, $2, $1 / $2, $3, note
        seconds += $1
        edits += $2
    }
    END { printf "%8d %6d %8.1f  in all, %d crates\n", seconds, edits, seconds / edits, NR }
'
