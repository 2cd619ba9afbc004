#!/bin/sh
# Times a run of 1,000,000 versions that is written in memory and on a real disk, beside a bare loop that writes the same bytes of
# entries, then 100,000 look-ups of keys in 667 blocks, which the cache holds the second time, 100,000 in all of its 33,334 blocks, and a
# walk over it. It is run by hand:
#
#     bench/runs.sh [FOLDER]
#
# FOLDER, or else the current one, says which disk is tried: what the run makes there is removed at the end.
set -eu
top=$(CDPATH= cd -- "$(dirname -- "$0")/.." && pwd)
room=$(CDPATH= cd -- "$(mktemp -d "${1:-.}/bench.XXXXXX")" && pwd)
trap 'rm -rf -- "$room"' EXIT
trap 'exit 130' INT TERM
(cd "$top/crates/mr_run_bench" && rt run -- 1000000)
cd "$room"
"$top/crates/mr_run_bench/out/mr_run_bench" disk
