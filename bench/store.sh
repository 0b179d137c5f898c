#!/bin/sh
# Times the store alone, on real files: slots that are put in groups of 1,000 and then scanned tenant by tenant,
# beside the same rows in sqlite3 with an index on (tenant, row), in WAL mode with synchronous=FULL and one
# transaction for each 1,000, on the same disk in the same run. The folder is the first word, the number of slots
# the second. Where valgrind is there and the third word is `profile`, it counts the instructions of a put and a
# scan of a tenth of the slots, by function.
set -eu
top=$(cd "$(dirname "$0")/.." && pwd)
folder=${1:-$top/bench/tmp}
count=${2:-100000}
profile=${3:-}
program=$top/crates/mt_store_bench/out/mt_store_bench
[ -x "$program" ] || (cd "$top/crates/mt_store_bench" && rt run >/dev/null 2>&1)
mkdir -p "$folder"
work=$(mktemp -d "$folder/store.XXXXXX")
trap 'rm -rf "$work"' EXIT
cd "$work"

# Runs the command behind the name, and tells its time, also that of the processor, and its peak memory.
report() {
    name=$1
    shift
    /usr/bin/time -f "%e %U %S %M" -o taken "$@" >output
    awk -v name="$name" -v n="$count" '{ printf "%-13s %7d rows %7.2f s (%6.2f s of the processor) %9d rows/s %8d KiB\n", name, n, $1, $2 + $3, ($1 > 0 ? n / $1 : 0), $4 }' taken
}

# Sees that the scan gave all slots, from the numbers of slots and the sums of their values on each line.
expect_all() {
    tr -c '0-9\n' ' ' <output | awk -v n="$count" '{ slots += $1; sum += $2 } END { if (slots != n || sum != n * (n - 1) / 2) { print "not all rows: " slots " " sum; exit 1 } }'
}

size() {
    cat "$@" | wc -c | awk -v files="$*" '{ printf "%-13s %d bytes\n", files, $1 }'
}

report "store put" "$program" put "$count"
report "store scan" "$program" scan
expect_all
size fold.log
size fold.pages
if command -v sqlite3 >/dev/null; then
    awk -v n="$count" 'BEGIN {
        print "PRAGMA journal_mode=WAL; PRAGMA synchronous=FULL;"
        print "CREATE TABLE t (tenant INTEGER, row INTEGER, value INTEGER); CREATE INDEX by_row ON t (tenant, row);"
        for (i = 0; i < n; i++) {
            if (i % 1000 == 0) print "BEGIN;"
            print "INSERT INTO t VALUES (" i % 100 + 1 ", " int(i / 100) ", " i ");"
            if (i % 1000 == 999 || i == n - 1) print "COMMIT;"
        }
    }' >put.sql
    awk 'BEGIN { for (t = 1; t <= 100; t++) print "SELECT count(value), sum(value) FROM (SELECT value FROM t WHERE tenant = " t " ORDER BY row);" }' >scan.sql
    report "sqlite3 put" sqlite3 -batch rows.db ".read put.sql"
    report "sqlite3 scan" sqlite3 -batch rows.db ".read scan.sql"
    expect_all
    size rows.db
else
    echo "sqlite3 is not on this machine"
fi
if [ "$profile" = profile ] && command -v valgrind >/dev/null; then
    tenth=$((count / 10))
    mkdir fresh
    cd fresh
    for words in "put $tenth" scan; do
        valgrind --quiet --tool=callgrind --callgrind-out-file=counted "$program" $words >/dev/null
        echo "instructions of $words:"
        callgrind_annotate --threshold=90 counted | grep -E '^ *[0-9,]+ \(' | sed 's/\[.*//' | head -16
    done
fi
