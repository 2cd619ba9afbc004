#!/bin/sh
# Times one-row INSERTs, each a commit of its own, through the program on a real folder, beside a bare loop that makes
# the same writes and syncs and nothing else, a few minutes in all. It is run by hand:
#
#     bench/commits.sh [FOLDER]
#
# FOLDER, or else the current one, says which disk is tried: what the run makes there is removed at the end.
set -eu
top=$(CDPATH= cd -- "$(dirname -- "$0")/.." && pwd)
room=$(CDPATH= cd -- "$(mktemp -d "${1:-.}/bench.XXXXXX")" && pwd)
trap 'rm -rf -- "$room"' EXIT
trap 'exit 130' INT TERM

# so many INSERTs into a new table, with keys that go up
script() {
    awk -v rows="$1" 'BEGIN {
        print "CREATE TABLE t (id BIGINT NOT NULL, v BIGINT, PRIMARY KEY (id));"
        for (i = 1; i <= rows; i++) print "INSERT INTO t VALUES (" i ", 2);"
    }'
}

# the seconds of such a script through the program
program() {
    rm -rf -- "$room/shop $1"
    script "$1" >"$room/$1.sql"
    start=$(date +%s.%N)
    "$top/myrocks" run "$room/shop $1" <"$room/$1.sql" >"$room/$1.out"
    end=$(date +%s.%N)
    served=$(grep -c '^OK' "$room/$1.out")
    if [ "$served" -ne $(($1 + 1)) ]; then
        echo "commits.sh: $served of the $(($1 + 1)) statements were served" >&2
        exit 1
    fi
    awk -v start="$start" -v end="$end" 'BEGIN { printf "%.3f\n", end - start }'
}

ratio() {
    awk -v of="$1" -v to="$2" 'BEGIN { printf "%.2f", of / to }'
}

cc -O2 -o "$room/bare" "$top/bench/bare.c"
# builds the program where that is due, so that no time has it
"$top/myrocks" >/dev/null 2>&1 || [ $? -eq 2 ]

few=10000
many=20000
rounds=3

# the lesser of a time so far, none at first, and another one
least() {
    awk -v so_far="${1:-$2}" -v other="$2" 'BEGIN { print (so_far + 0 < other + 0) ? so_far : other }'
}

# Other work on the machine only makes a time longer, so the least of the rounds counts.
few_bare='' few_program='' many_bare='' many_program=''
for round in $(seq $rounds); do
    few_bare=$(least "$few_bare" "$("$room/bare" "$room/bare.log" $few)")
    few_program=$(least "$few_program" "$(program $few)")
    many_bare=$(least "$many_bare" "$("$room/bare" "$room/bare.log" $many)")
    many_program=$(least "$many_program" "$(program $many)")
    echo "round $round of $rounds is done" >&2
done

echo "commits   bare s   program s   bare/program"
printf '%7d %8s %11s %14s\n' $few "$few_bare" "$few_program" "$(ratio "$few_bare" "$few_program")"
printf '%7d %8s %11s %14s\n' $many "$many_bare" "$many_program" "$(ratio "$many_bare" "$many_program")"
echo "twice the commits take the program $(ratio "$many_program" "$few_program") times as long"
