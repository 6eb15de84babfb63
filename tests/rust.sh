#!/usr/bin/env bash
# The crate for hosts in Rust (host/rust): builds offline without a warning, its sizes and places are the C compiler's,
# its tests hold, and its example keeps labels that zkv reads.
#
# tests/rust.sh         needs host/build/zkv and libzitskvoze.a (make -C host), and cargo 1.77 on: where that is missing
#                       it is installed, as the gate installs what it needs, and where it cannot be the test fails
set -euo pipefail
cd "$(dirname "$0")/.."
fail() { echo "rust: $*" >&2; exit 1; }
[ -e host/build/libzitskvoze.a ] || { echo "host/build/libzitskvoze.a is missing: run make -C host" >&2; exit 2; }
has_cargo() {
    local minor
    minor=$(cargo --version 2> /dev/null | sed -n 's/^cargo 1\.\([0-9]*\)\..*/\1/p')
    [ "${minor:-0}" -ge 77 ]
}
# Debian has a later one under the second name where the first is old.
has_cargo || {
    apt-get update || true
    for package in cargo cargo-web; do
        has_cargo || apt-get install -y "$package" || true
    done
} >&2
has_cargo || fail "there is no cargo of version 1.77 on, and it cannot be installed"
work=$(mktemp -d)
trap 'rm -rf "$work"' EXIT
[ ! -w /dev/shm ] || export TMPDIR=/dev/shm         # the tests sync often

cat > "$work/layout.c" <<'END'
#include <stdio.h>
#include "zitskvoze_file.h"
#define AT(field) offsetof(zkv_file, field)
int main(void)
{
    const size_t found[] = {sizeof(zkv_record), sizeof(zkv_report), sizeof(zkv_chunk_row), ZKV_ENTRY_WORDS, sizeof(zkv_file_wait),
                            sizeof(zkv_file), AT(bytes), AT(name), AT(length), AT(use), AT(page), AT(device), AT(made), AT(wanted)};
    for (size_t i = 0; i < sizeof found / sizeof *found; i++) {
        printf("%s%zu", i == 0 ? "" : " ", found[i]);
    }
    return 0;
}
END
gcc -std=c11 -Wall -Wextra -Werror -Iinclude -o "$work/layout" "$work/layout.c"
export ZKV_LAYOUT CARGO_TARGET_DIR=$PWD/host/build/rust RUSTFLAGS="-D warnings"
ZKV_LAYOUT=$("$work/layout")
cd host/rust
cargo test --offline --locked > "$work/log" 2>&1 || { cat "$work/log" >&2; fail "the tests do not hold"; }
tests=$(grep -c '^test .* ok$' "$work/log")
[ "$tests" -ge 22 ] || fail "only $tests tests were run"
cargo build --offline --locked --example labels > "$work/log" 2>&1 || { cat "$work/log" >&2; fail "the example does not build"; }
cd ../..

labels=host/build/rust/debug/examples/labels
[ "$("$labels" "$work/labels.img" 4711 'A+ 450 ml')" = '4711 A+ 450 ml' ] || fail "the example's label does not come back"
[ "$("$labels" "$work/labels.img" 5 'B- "')" = $'5 B- \\"\n4711 A+ 450 ml' ] || fail "the example's labels do not come back"
[ "$(host/build/zkv get "$work/labels.img" 4711)" = 'A+ 450 ml' ] || fail "zkv does not read what the example put"
gcc -O2 -shared -fPIC -o "$work/failing.so" tests/failing_sync.c
status=0
SYNCS=1 LD_PRELOAD=$work/failing.so "$labels" "$work/labels.img" 6 'O+' > "$work/out" 2> "$work/err" || status=$?
[ "$status" -eq 2 ] && [ ! -s "$work/out" ] && grep -q 'a fence failed' "$work/err" ||
    fail "where a sync fails the example ends with $status: $(cat "$work/out" "$work/err")"
status=0
"$labels" "$work/labels.img" x y 2> /dev/null || status=$?
[ "$status" -eq 2 ] || fail "the example takes x for a key"
echo "rust: $tests tests hold, and zkv reads what the example put"
