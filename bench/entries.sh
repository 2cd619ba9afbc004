#!/bin/sh
# Times the judging of an entry of a key over two texts, and the reading of both from it.
set -eu
top=$(cd "$(dirname "$0")/.." && pwd)
cd "$top/crates/mr_entry_bench"
rt run -- 1000000
