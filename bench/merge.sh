#!/bin/sh
# Times a merge of 1,000,000 versions in memory into runs that are only counted.
set -eu
top=$(cd "$(dirname "$0")/.." && pwd)
cd "$top/crates/mr_compact_bench"
rt run -- 1000000
