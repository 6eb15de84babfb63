#!/bin/sh
# Builds the archive of the public calls and, for some numbers of keys, the benchmark of a nearly full register over it, and
# runs it. Run from the repository root.
set -e
make -s -C host archive
mkdir -p bench/build
for keys in ${*:-28000 30000 32000 32700}; do
    gcc -O2 -Wall -Iinclude -Ihost -DROOM_CHUNKS=504 -DROOM_TABLE=131072 -DROOM_KEYS="$keys" -DROOM_WARM_UP=300000 -DPLAIN_BITS=17 \
        -o bench/build/full_room bench/full_room.c host/bench_clean.c host/build/libregister.a
    bench/build/full_room
done
