#!/bin/sh
# Times the reading of statements by the word plain: 20,000 of mixed forms, and long lines of one form each,
# also at half the length, to see that the time grows with the line. No statement here is answered from
# rows: each is refused behind its reading, so reading is what it costs.
set -eu
top=$(cd "$(dirname "$0")/.." && pwd)
program=$top/crates/foldsql/out/foldsql
"$top/foldsql" nothing >/dev/null 2>&1 || true
work=$(mktemp -d)
trap 'rm -rf "$work"' EXIT
cd "$work"

# Times the program on a file of lines, and sees that it gave so many replies of each text that is expected.
report() {
    name=$1
    count=$2
    expected=$3
    /usr/bin/time -f "%e %U %S" -o taken "$program" plain <"$name" >replies
    awk -v name="$name" -v n="$count" -v bytes="$(wc -c <"$name")" '{
        printf "%-12s %6d lines of %6d bytes %6.2f s %8.4f ms a line, of it %.4f its own and %.4f the system'\''s\n",
            name, n, bytes / n, $1, 1000 * $1 / n, 1000 * $2 / n, 1000 * $3 / n
    }' taken
    sort replies | uniq -c | sed 's/^ *//' >given
    printf '%s\n' "$expected" >wanted
    cmp -s given wanted || {
        echo "$name: replies are not as expected"
        diff wanted given
        exit 1
    }
}

refused="error E09 not served here"
syntax="error E10 syntax"

awk 'BEGIN {
    print "@admin CREATE TENANT 1 QUOTA 1";
    for (i = 1; i <= 20000; i += 8) {
        print "@1 SELECT a.x AS first, b.y, COUNT(*) FROM account AS a INNER JOIN bed b ON a.id = b.id WHERE a.x > " i " AND NOT (b.y = 1 OR b.z LIKE \047a%\047) GROUP BY a.x, b.y HAVING COUNT(*) > 1 ORDER BY first DESC, 2 LIMIT 10";
        print "@1 INSERT INTO account (id, x, name) VALUES (" i ", -5, \047it\047\047s\047), (" i + 1 ", NULL, \047\047)";
        print "@1 UPDATE account SET x = (x + " i ") * 2, name = NULL WHERE id IN (1, 2, 3, " i ")";
        print "@1 DELETE FROM account WHERE x NOT BETWEEN 1 AND " i;
        print "@1 PURGE account WHERE name IS NOT NULL";
        print "@1 SELECT * , x FROM account";
        print "@admin CREATE TABLE t" i " (id INTEGER NOT NULL, name VARCHAR(20), PRIMARY KEY (id))";
        print "@admin REFOLD 1 account TO CONV (id, x), C1 (name), C4 (y, z)";
    }
}' >mixed
report mixed 20001 "17500 $refused
2500 $syntax
1 ok"

# One tenant, and so many lines of one text: a front, a unit so many times, a back; each is answered the last word.
long() {
    awk -v front="$2" -v unit="$3" -v times="$4" -v back="$5" -v lines="$6" 'BEGIN {
        print "@admin CREATE TENANT 1 QUOTA 1";
        line = front;
        for (i = 0; i < times; i++) line = line unit;
        line = line back;
        for (i = 0; i < lines; i++) print line;
    }' >"$1"
    report "$1" "$6" "$6 $7
1 ok"
}
long sum "@1 SELECT 1" "+1" 32757 " FROM t" 200 "$refused"
long half-sum "@1 SELECT 1" "+1" 16378 " FROM t" 200 "$refused"
long and "@1 PURGE t WHERE a=1" " AND a=1" 8189 "" 200 "$refused"
long half-and "@1 PURGE t WHERE a=1" " AND a=1" 4094 "" 200 "$refused"
long tuples "@1 INSERT INTO t VALUES (1,\047some text of one row\047,NULL)" ",(1,\047some text of one row\047,NULL)" 999 "" 200 "$refused"
long 1001-tuples "@1 INSERT INTO t VALUES (1,\047some text of one row\047,NULL)" ",(1,\047some text of one row\047,NULL)" 1000 "" 200 "$syntax"
brackets=$(printf '%064d' 0 | tr 0 ')')
long brackets "@1 PURGE t WHERE " "(" 64 "a=1$brackets" 20000 "$refused"
