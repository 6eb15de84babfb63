#!/bin/sh
# Builds the key table's C-linkable archive and the benchmark over it, and runs it. Run from the repository root.
set -e
(cd crates/bench && rt lib)
mkdir -p bench/build
gcc -O2 -Wall -o bench/build/index bench/index.c crates/bench/out/libbench.a
bench/build/index
