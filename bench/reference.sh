#!/bin/sh
# Times the plain program, after proving and building it where that is due: 300 statements over three tables of 50 rows; 256 rows of
# 65,535 letters, each a commit, which UPDATE then moves; and 512 such rows in one transaction. For each script it prints
# the seconds, and the last four lines of the replies. It is run by hand.
set -eu
top=$(CDPATH= cd -- "$(dirname -- "$0")/.." && pwd)
room=$(mktemp -d)
trap 'rm -rf -- "$room"' EXIT
trap 'exit 130' INT TERM

# the script of small rows: inserts, then reads and writes by turns, a third of them in transactions
small() {
    awk 'BEGIN {
        srand(1)
        for (t = 0; t < 3; t++) {
            print "CREATE TABLE t" t " (id BIGINT NOT NULL, n VARCHAR(20) COLLATE ascii_general_ci, v BIGINT, PRIMARY KEY (id), KEY k (n));"
            for (i = 0; i < 50; i += 10) {
                line = "INSERT INTO t" t " VALUES "
                for (j = i; j < i + 10; j++) line = line (j > i ? ", " : "") "(" j ", '\''name " int(rand() * 30) "'\'', " int(rand() * 100) ")"
                print line ";"
            }
        }
        for (s = 18; s < 300; s++) {
            t = "t" int(rand() * 3); id = int(rand() * 50)
            if (s % 9 == 0) print "BEGIN;"
            else if (s % 9 == 3) print "COMMIT;"
            else if (s % 3 == 1) print "SELECT id, n, v FROM " t " WHERE v >= " id " ORDER BY n LIMIT 20;"
            else if (s % 4 == 0) print "DELETE FROM " t " WHERE id = " id ";"
            else if (s % 4 == 1) print "SELECT COUNT(*) FROM " t " FORCE INDEX (k) WHERE n = '\''NAME " int(rand() * 30) "'\'';"
            else if (s % 4 == 2) print "REPLACE INTO " t " VALUES (" id ", '\''name " int(rand() * 30) "'\'', " s ");"
            else print "UPDATE " t " SET v = v + 1 WHERE id = " id ";"
        }
    }'
}

# so many rows of 65,535 letters, between these lines
large() {
    awk -v rows="$1" -v front="$2" -v behind="$3" 'BEGIN {
        print "CREATE TABLE q (id BIGINT NOT NULL, p VARBINARY(65535), PRIMARY KEY (id));" front
        for (letters = "x"; length(letters) < 65535; ) letters = letters letters
        letters = substr(letters, 1, 65535)
        for (i = 1; i <= rows; i++) print "INSERT INTO q VALUES (" i ", '\''" letters "'\'');"
        print behind
    }'
}

small >"$room/300 statements"
large 256 "" "UPDATE q SET id=id+1000; DELETE FROM q WHERE id=256; UPDATE q SET id=id+1000; SELECT MIN(id),MAX(id) FROM q;" >"$room/256 rows, moved"
large 512 "BEGIN;" "COMMIT; SELECT COUNT(*) FROM q;" >"$room/512 rows, one transaction"

cd -- "$top/crates/mr_reference"
rt run -- --now=7 </dev/null >&2
for script in "$room/300 statements" "$room/256 rows, moved" "$room/512 rows, one transaction"; do
    start=$(date +%s.%N)
    out/mr_reference --now=7 <"$script" >"$room/replies" || true
    end=$(date +%s.%N)
    echo "$start $end ${script#"$room/"}" | awk '{ printf "%.2f s:", $2 - $1; for (i = 3; i <= NF; i++) printf " %s", $i; print "" }'
    tail -n 4 "$room/replies"
done
