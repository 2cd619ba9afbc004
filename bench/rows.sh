#!/bin/sh
# Times the reading of columns of a row of some 200 bytes: judged each time, and known to be one.
set -eu
top=$(cd "$(dirname "$0")/.." && pwd)
cd "$top/crates/mr_row_bench"
rt run -- 1000000
