#!/bin/sh
# Compares zkv_run with zkv_step (tests/runs.c). The comparison is first shown to find, in report, image, table and
# record, that the stepped copy made a step or two fewer.
#
# tests/runs.sh [CASES]             of each kind (1,000); needs host/build/runs and runs_wrong (make -C host)
set -eu
cd "$(dirname "$0")/.."
[ -x host/build/runs ] && [ -x host/build/runs_wrong ] || { echo "host/build/runs is missing: run make -C host" >&2; exit 2; }
work=$(mktemp -d)
trap 'rm -rf "$work"' EXIT

status=0
host/build/runs_wrong 100 > "$work/out" || status=$?
counts=$(sed -n 's/^runs: of [0-9]* runs differ in //p' "$work/out")
if [ "$status" -ne 1 ] || [ -z "$counts" ] || echo "$counts" | grep -qw 0; then
    echo "runs: a step or two fewer was not found in each of report, image, table and record:" >&2
    cat "$work/out" >&2
    exit 1
fi
echo "runs: a step or two fewer is found: $counts"
host/build/runs "$@"
