#!/usr/bin/env bash
# Tries the must-fail edits that the gate leaves out: tests/edits/CRATE/NAME.edit, in the form of
# crates/CRATE/must-fail. Each is refused by the prover, or this ends with status 1.
#   tests/edits.sh            all crates that have such edits
#   tests/edits.sh CRATE..    these
set -euo pipefail
cd "$(dirname "${BASH_SOURCE[0]}")/.."
[ "${1:-}" != --help ] || { sed -n '2,5p' "$0"; exit 0; }
crates=("$@")
[ ${#crates[@]} -gt 0 ] || crates=($(ls tests/edits))
work=$(mktemp -d)
trap 'rm -rf "$work"' EXIT
tar -c --exclude=out --exclude=must-fail crates crates.txt $([ ! -e HANDLES ] || echo HANDLES) | tar -x -C "$work"
for c in "${crates[@]}"; do
    [ -d "tests/edits/$c" ] || { echo "no edits of $c" >&2; exit 2; }
    cp -a "tests/edits/$c" "$work/crates/$c/must-fail"
done
cd "$work"
rt must-fail "${crates[@]}"
