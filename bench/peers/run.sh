#!/usr/bin/env bash
# Installs LMDB and libpmemobj from Debian's packages if they are missing, builds the drivers over the proved archive
# and runs them on files in memory (/dev/shm). No part of the gate.
#   bench/peers/run.sh [ROUNDS]
set -euo pipefail
cd "$(dirname "${BASH_SOURCE[0]}")/../.."
missing=()
[ -f /usr/include/lmdb.h ] || missing+=(liblmdb-dev)
[ -f /usr/include/libpmemobj.h ] || missing+=(libpmemobj-dev)
[ ${#missing[@]} -eq 0 ] || { apt-get update && apt-get install -y "${missing[@]}"; } >&2
make -C host build/libzitskvoze.a >&2
mkdir -p bench/build
gcc -std=gnu11 -O2 -Wall -Wextra -Iinclude -Ihost -o bench/build/peers bench/peers/*.c host/build/libzitskvoze.a -llmdb -lpmemobj
folder=$(mktemp -d /dev/shm/peers.XXXXXX)
trap 'rm -rf "$folder"' EXIT
PMEM_IS_PMEM_FORCE=1 bench/build/peers "$folder" "${1:-12}"
