#!/bin/sh
# Times commits of one range of 100 bytes each by the journal alone, on real files, beside sqlite3 in WAL
# mode with synchronous=FULL that commits one row of 100 bytes each, on the same disk in the same run.
# The folder is the first word, the number of commits the second. Where strace is there, a run more counts the
# journal's calls of the system.
set -eu
top=$(cd "$(dirname "$0")/.." && pwd)
folder=${1:-$top/bench/tmp}
count=${2:-2000}
program=$top/crates/mt_journal_bench/out/mt_journal_bench
[ -x "$program" ] || (cd "$top/crates/mt_journal_bench" && rt run >/dev/null 2>&1)
mkdir -p "$folder"
work=$(mktemp -d "$folder/commit.XXXXXX")
trap 'rm -rf "$work"' EXIT
cd "$work"

report() {
    name=$1
    shift
    /usr/bin/time -f "%e" -o taken "$@" >/dev/null
    awk -v name="$name" -v n="$count" '{ printf "%-10s %6d commits %7.2f s %8d commits/s\n", name, n, $1, ($1 > 0 ? n / $1 : 0) }' taken
}

report journal "$program" "$count"
if command -v strace >/dev/null; then
    # in a folder of its own, since a run in this one would first replay the log of the run before
    mkdir fresh
    (cd fresh && strace -f -c -o ../traced "$program" "$count")
    awk -v n="$count" '$4 / n >= 0.01 && $NF != "syscall" { printf "%-10s %6.2f %s a commit\n", "journal", $4 / n, $NF }' traced
else
    echo "no strace"
fi
if command -v sqlite3 >/dev/null; then
    awk -v n="$count" 'BEGIN {
        print "PRAGMA journal_mode=WAL; PRAGMA synchronous=FULL; CREATE TABLE t (id INTEGER PRIMARY KEY, body BLOB);"
        for (i = 1; i <= n; i++) print "INSERT INTO t VALUES (" i ", zeroblob(100));"
    }' >script.sql
    report sqlite3 sqlite3 -batch rows.db ".read script.sql"
else
    echo "sqlite3 is not on this machine"
fi
