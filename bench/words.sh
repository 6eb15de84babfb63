#!/bin/sh
# Shows that reading and storing a word is one machine move each, behind the test of the bounds. Run from the repository
# root.
set -e
(cd crates/bench && rt lib)
mkdir -p bench/build
for f in bench_load bench_save; do
    objdump -d --no-show-raw-insn crates/bench/out/libbench.a |
        awk -v f="<$f>:" '$2 == f { p = 1 } p { print } p && /ret/ { exit }' > "bench/build/$f.txt"
    cat "bench/build/$f.txt"
    echo "$f: $(grep -c 'mov.*(' "bench/build/$f.txt") machine move(s) to or from memory"
done
