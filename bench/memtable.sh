#!/bin/sh
# Times inserts of random 12-byte keys into a memtable, first 100,000, then 1,000,000, with one reserve for all, one for each hundred and
# one for each, and the longest of those for a hundred; look-ups of these keys; and a walk over as many in eight memtables as one.
set -eu
top=$(cd "$(dirname "$0")/.." && pwd)
cd "$top/crates/mr_memtable_bench"
rt run -- 100000 1000000
