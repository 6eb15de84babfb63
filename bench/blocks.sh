#!/bin/sh
# Builds the archive of the public calls and the benchmark of large values over it, and runs it, from the root.
#   bench/blocks.sh [ROUNDS]
set -e
make -s -C host archive
mkdir -p bench/build
gcc -std=c11 -O2 -Wall -Wextra -Iinclude -Ihost -o bench/build/blocks bench/blocks.c host/build/libregister.a
bench/build/blocks "$@"
