#!/bin/sh
# Builds the archive of the public calls and the benchmark of large chunks over it, and runs it, from the root.
#   bench/large.sh [RUNS]
set -e
make -s -C host archive
mkdir -p bench/build
gcc -std=c11 -O2 -Wall -Wextra -Iinclude -Ihost -o bench/build/large bench/large.c host/build/libregister.a
bench/build/large "$@"
