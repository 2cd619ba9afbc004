#!/bin/sh
# Times SELECT over rows in memory, of `v > 5 AND n = 'x'`, and of the same with ORDER BY and LIMIT 10, at 100,000 and 1,000,000 rows.
set -eu
top=$(cd "$(dirname "$0")/.." && pwd)
cd "$top/crates/mr_exec_bench"
rt run -- 100000 1000000
