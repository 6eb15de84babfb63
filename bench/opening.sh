#!/bin/sh
# Builds the archive of the public calls and the benchmark of opening and look-up over it, and runs it. Run from the
# repository root.
set -e
make -s -C host archive
mkdir -p bench/build
gcc -O2 -Wall -Iinclude -o bench/build/opening bench/opening.c host/build/libregister.a
bench/build/opening
