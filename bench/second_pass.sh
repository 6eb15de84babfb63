#!/bin/sh
# Builds the archive of the public calls and the benchmark of openings that need more than one pass over it, and runs
# it. Run from the repository root.
set -e
make -s -C host archive
mkdir -p bench/build
gcc -O2 -Wall -Iinclude -o bench/build/second_pass bench/second_pass.c host/build/libregister.a
bench/build/second_pass
