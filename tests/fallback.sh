#!/usr/bin/env bash
# The write-back on processors that lack clwb (host/device.h): a host that makes every call (tests/host.c) and the
# program zkv run under qemu-user on processors with clwb, with clflushopt alone, and with clflush alone. Each must use
# the best instruction that its processor has and no other, and leave the image that the native run leaves, byte for
# byte. First shown: a processor without clwb does not take one (SIGILL), so that a wrong choice would end the run.
#
# NOT run on real hardware: clflushopt and clflush were run under qemu alone, as the processors that we test on have
# clwb. qemu does nothing at each of the three, so this tells which instructions are executed and that the programs
# work, and nothing of what is durable when, or how fast. Nothing here was run on persistent memory: under qemu no file
# is mapped with MAP_SYNC, so the fences also sync pages.
#
# tests/fallback.sh     needs host/build/zkv and libzitskvoze.a (make -C host), gcc; installs qemu-user where it is
#                       missing; no part of the gate
set -euo pipefail
cd "$(dirname "$0")/.."
fail() { echo "fallback: $*" >&2; exit 1; }
[ -x host/build/zkv ] || { echo "host/build/zkv is missing: run make -C host" >&2; exit 2; }
command -v qemu-x86_64 > /dev/null || { apt-get update && apt-get install -y qemu-user; } >&2
zkv=$PWD/host/build/zkv
work=$(mktemp -d)
trap 'rm -rf "$work"' EXIT
build() { gcc -std=c11 -O2 -Wall -Wextra -Werror -Iinclude -o "$work/$1" "$2" host/build/libzitskvoze.a; }
build host tests/host.c
cat > "$work/forced.c" <<'END'
#include "zitskvoze.h"
int main(int count, char **argument)
{
    static _Alignas(64) uint8_t line[64];
    int how = count > 1 ? argument[1][0] - '0' : zkv_best_write_back();
    zkv_write_back(&how, line);
    return zkv_store_fence(&how);
}
END
build forced "$work/forced.c"
cd "$work"

# Each instruction, asked for whatever the processor has: what it has not it does not take.
# takes PROCESSOR NUMBER STATUS
takes() {
    local status=0
    ( qemu-x86_64 -cpu "$1" ./forced "$2" || exit $? ) 2> /dev/null || status=$?
    [ "$status" -eq "$3" ] || fail "$1 ended instruction $2 with $status and not $3"
}
takes max 2 0
takes max,clwb=off 2 132
takes max,clwb=off 1 0
takes max,clwb=off,clflushopt=off 1 132
takes max,clwb=off,clflushopt=off 0 0

# tour ZKV..: every command that writes, on a.img and b.img.
tour() {
    rm -f a.img b.img
    "$@" format a.img 12 --station 7
    printf 'A+ 450 ml' | "$@" put a.img 4711 -
    head -c 3000 large | "$@" put a.img 5 -
    printf '8\tB-\n9\t\\x00\\xff\n4711\tB- 450 ml\n' | "$@" load a.img -
    "$@" delete a.img 9
    "$@" clean a.img
    "$@" copy a.img b.img 9
    "$@" check b.img --against "$("$@" digest a.img)"
}
head -c 4096 "$zkv" > large
tour "$zkv" > native.out
mv a.img native.a
mv b.img native.b
runs=0
while read -r processor wanted; do
    rm -f host.img log
    qemu-x86_64 -cpu "$processor" -d in_asm -D log ./host host.img 2> err ||
        fail "$processor: the host ended with $? ($(tail -n 1 err))"
    used=$(grep -ow -e clwb -e clflushopt -e clflush log | sort -u | tr '\n' ' ')
    [ "$used" = "$wanted " ] || fail "$processor: used were '$used' and not $wanted"
    grep -qw sfence log || fail "$processor: no sfence"
    "$zkv" check host.img > /dev/null || fail "$processor: the host's image is refused"
    tour qemu-x86_64 -cpu "$processor" "$zkv" > out 2> err || fail "$processor: zkv ended with $? ($(tail -n 1 err))"
    cmp -s out native.out && cmp -s a.img native.a && cmp -s b.img native.b ||
        fail "$processor: zkv's images or words differ from the native ones"
    runs=$((runs + 1))
done <<'END'
max clwb
max,clwb=off clflushopt
EPYC clflushopt
max,clwb=off,clflushopt=off clflush
Haswell clflush
qemu64 clflush
END
echo "fallback: under qemu alone, $runs processors, each by the best instruction it has; images as the native ones"
