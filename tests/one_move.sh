#!/bin/sh
# A store into the image, by zkv_step or zkv_run, is one machine move of 8 bytes, so that a power cut never tears a
# word: looks at the compiled archive (objdump, tests/stores.py), and watches the image instruction by instruction
# (tests/one_move.c). Both are first shown to find a store in parts.
#
# tests/one_move.sh [ARCHIVE]       host/build/libregister.a if none is named; needs gcc, objdump, Python 3
set -eu
cd "$(dirname "$0")/.."
archive=${1:-host/build/libregister.a}
[ -f "$archive" ] || { echo "$archive is missing: run make -C host archive" >&2; exit 2; }
work=$(mktemp -d)
trap 'rm -rf "$work"' EXIT

cat > "$work/torn.c" <<'END'
#include <stddef.h>
#include <stdint.h>
void zkv_step(uint8_t *image, size_t word, uint64_t value)
{
    uint8_t *p = image + 8 * word;
    p[0] = (uint8_t)value, p[1] = (uint8_t)(value >> 8), p[2] = (uint8_t)(value >> 16), p[3] = (uint8_t)(value >> 24);
    p[4] = (uint8_t)(value >> 32), p[5] = (uint8_t)(value >> 40), p[6] = (uint8_t)(value >> 48), p[7] = (uint8_t)(value >> 56);
}
END
cat > "$work/torn_answer.c" <<'END'
#include <stddef.h>
#include <stdint.h>
void zkv_step(volatile uint8_t *answer, const uint64_t *record, volatile uint8_t *image, size_t word, uint64_t value)
{
    volatile uint8_t *p = image + 8 * word;
    answer[48] = (uint8_t)record[0];
    for (int i = 0; i < 4; i++) {
        p[2 * i] = (uint8_t)(value >> 16 * i), p[2 * i + 1] = (uint8_t)(value >> (16 * i + 8));
    }
    answer[49] = (uint8_t)word;
}
END
for sample in "torn -O0" "torn_answer -O2 -funroll-all-loops"; do
    name=${sample%% *}
    gcc ${sample#* } -c "$work/$name.c" -o "$work/torn.o"
    if python3 -B tests/stores.py "$work/torn.o" > "$work/out"; then
        echo "one_move: stores.py did not find eight stores of a byte" >&2
        exit 1
    fi
    grep -q ' 8 stores that are not whole words' "$work/out" || { cat "$work/out" >&2; exit 1; }
done
python3 -B tests/stores.py "$archive" zkv_step
python3 -B tests/stores.py "$archive" zkv_run

flags="-std=c11 -O2 -Wall -Wextra -Werror -Iinclude"
for torn in TORN TORN_RUN; do
    gcc $flags -D$torn tests/one_move.c "$archive" -o "$work/torn"
    status=0
    "$work/torn" > "$work/out" || status=$?
    if [ "$status" -ne 1 ] || ! grep -q 'not stored by one instruction' "$work/out"; then
        echo "one_move: a store byte by byte was not seen ($torn):" >&2
        cat "$work/out" >&2
        exit 1
    fi
done
gcc $flags tests/one_move.c "$archive" -o "$work/whole"
"$work/whole"
