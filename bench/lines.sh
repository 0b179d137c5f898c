#!/bin/sh
# Times the answering of a script of 1,000,000 lines, one in ten of which makes a tenant, beside what
# cat and sqlite3 take for as many lines. Prints seconds, lines per second and the peak memory in KiB;
# the peak of a tenth of the script shows whether memory grows with the input.
set -eu
top=$(cd "$(dirname "$0")/.." && pwd)
lines=${1:-1000000}
work=$(mktemp -d)
trap 'rm -rf "$work"' EXIT

script() {
    awk -v n="$1" 'BEGIN {
        for (i = 1; i <= n; i++)
            if (i % 10 == 0) print "@admin CREATE TENANT " i / 10 " QUOTA 10"
            else print "@17 SELECT name FROM account WHERE aid = " i
    }'
}
sql() {
    awk -v n="$1" 'BEGIN {
        print "CREATE TABLE tenant (id INTEGER PRIMARY KEY, quota INTEGER); BEGIN;"
        for (i = 1; i <= n; i++)
            if (i % 10 == 0) print "INSERT INTO tenant VALUES (" i / 10 ", 10);"
            else print "SELECT " i ";"
        print "COMMIT;"
    }'
}
# name, number of lines, input, command: seconds, lines per second, and KiB at the peak
report() {
    name=$1
    count=$2
    input=$3
    shift 3
    /usr/bin/time -f "%e %M" -o taken "$@" <"$input" >/dev/null
    awk -v name="$name" -v n="$count" \
        '{ printf "%-18s %8d lines %6.2f s %10d lines/s %7d KiB\n", name, n, $1, ($1 > 0 ? n / $1 : 0), $2 }' taken
}

"$top/foldsql" run </dev/null
cd "$work"
script "$lines" >all.fold
script $((lines / 10)) >tenth.fold
sql "$lines" >all.sql
report foldsql "$lines" all.fold "$top/foldsql" run
report "foldsql, a tenth" $((lines / 10)) tenth.fold "$top/foldsql" run
report cat "$lines" all.fold cat
if command -v sqlite3 >/dev/null; then
    report sqlite3 "$lines" all.sql sqlite3 :memory:
else
    echo "sqlite3 is not on this machine"
fi
