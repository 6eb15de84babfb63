#!/bin/sh
# Builds the archive of the public calls and the benchmark of choosing over it, and runs it. Run from the repository
# root.
set -e
make -s -C host archive
mkdir -p bench/build
gcc -O2 -Wall -Iinclude -o bench/build/choosing bench/choosing.c host/build/libregister.a
bench/build/choosing
