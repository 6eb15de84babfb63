#!/usr/bin/env bash
# Counts the instructions of the public calls (callgrind) and compares them with the kept figures, bench/instructions.txt:
# more than 3 % above one of them is an error. They do not depend on the machine's speed. No part of the gate. The kept
# figures are of the library before the design pass (docs/DESIGN-PASS.md), compiled by today's kit.
# A row has the instructions inside the calls, and those with the loop of the driver around them. Clearing the key table is
# one instruction of the processor, which callgrind counts once for each byte: an opening's figure is without it.
#   bench/instructions.sh            compare
#   bench/instructions.sh --keep     write the figures anew
set -euo pipefail
cd "$(dirname "${BASH_SOURCE[0]}")/.."
[ -f /usr/include/valgrind/callgrind.h ] || { apt-get update && apt-get install -y valgrind; } >&2
[ -f host/build/libregister.a ] || make -s -C host archive
mkdir -p bench/build
gcc -std=c11 -O2 -Wall -Wextra -Iinclude -o bench/build/instructions bench/instructions.c host/build/libregister.a
kept=bench/instructions.txt
now=$(mktemp)
trap 'rm -f "$now" "$now.out" "$now.ops"' EXIT
while read -r row what; do
    valgrind --tool=callgrind --instr-atstart=no --callgrind-out-file="$now.out" bench/build/instructions "$row" \
        > "$now.ops" 2> /dev/null
    total=$(awk '/^totals:/ {print $2; exit}' "$now.out")
    inside=$(callgrind_annotate --inclusive=yes --threshold=100 "$now.out" 2> /dev/null \
        | awk '/:zkv_[a-z_]+ / {gsub(",", "", $1); sum += $1} /:__memset/ {gsub(",", "", $1); sum -= $1} END {print sum}')
    ops=$(cat "$now.ops")
    echo "$row $((inside / ops)) $((total / ops)) $what"
done > "$now" <<'END'
put16 put of 16 bytes with its commit, a known key
step16 the same by zkv_step
put256 put of 256 bytes
put1000 put of 1,000 bytes, in a block
put4088 put of 4,088 bytes, in a block
batch16 batch of 16 puts of 16 bytes
look16 look-up of a value in the log
look4088 look-up of a value in a block
version16 look-up of a value in the log with its version
named16 put of 16 bytes for a version named, with its commit
open opening, an entry
delete delete of a put of 16 bytes, with its commit
clean cleaning of a chunk of which half is kept, chosen, begun and run
END
[ "${1:-}" != --keep ] || cp "$now" "$kept"
worse=0
while read -r row count all what; do
    before=$(awk -v r="$row" '$1 == r {print $2}' "$kept")
    mark=""
    if [ "$count" -gt $((before * 103 / 100)) ]; then
        mark="   more than 3 % above"
        worse=1
    fi
    printf '%-48s %7d   with the driver %7d   kept %7d%s\n' "$what" "$count" "$all" "$before" "$mark"
done < "$now"
exit $worse
