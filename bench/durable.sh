#!/usr/bin/env bash
# Times what a store on real files makes durable: transactions of one node each, by a schema with a key, through `apply`. Beside it stand
# this disk's own rate where each commit is a record and then a byte that marks it, with a sync behind each, as the journal has them, and
# SQLite with the same constraints on a file (WAL, synchronous FULL), by Python's sqlite3. For each it says how many transactions a second
# of the clock it takes, since a sync is waited for, and how much processor time was spent. All three write in one folder, one after the
# other. The guard judges the whole graph after each transaction, so the more transactions, the fewer a second.
# Usage: bench/durable.sh [COUNT [FOLDER]], 10,000 in the folder where it is called unless said
set -eu
top=$(cd "$(dirname "$(readlink -f "${BASH_SOURCE[0]}")")/.." && pwd)
count=${1-10000}
work=$(mktemp -d -p "${2-.}")
work=$(readlink -f "$work")
trap 'rm -rf "$work"' EXIT
program=$("$top/tools/run" --path pgguard)
cd "$work"
echo 'CREATE GRAPH TYPE g STRICT {(p: Person {id INT, mail STRING}), FOR (x:p) IDENTIFIER x.mail};' >schema
python3 - "$count" >lines <<'E'
import sys
for number in range(1, int(sys.argv[1]) + 1):
    print('{"ops":[{"add_node":%d,"labels":["Person"],"props":{"id":%d,"mail":"u%d@x.org"}}]}' % (number, number, number))
E
cat >disk.py <<'E'
import os, sys
journal = os.open("disk", os.O_RDWR | os.O_CREAT, 0o600)
os.pwrite(journal, bytes(99), 0)
end = 99
for number in range(int(sys.argv[1])):
    record = bytes(69)
    os.pwrite(journal, record, end)
    os.fdatasync(journal)
    os.pwrite(journal, b"\1", end - 1)
    os.fdatasync(journal)
    end += len(record)
E
cat >tables.py <<'E'
import sqlite3, sys
base = sqlite3.connect("tables", isolation_level=None)
base.execute("PRAGMA journal_mode = WAL")
base.execute("PRAGMA synchronous = FULL")
base.execute("CREATE TABLE person (node INTEGER PRIMARY KEY, id INTEGER NOT NULL, mail TEXT NOT NULL UNIQUE) STRICT")
for number in range(1, int(sys.argv[1]) + 1):
    base.execute("BEGIN")
    base.execute("INSERT INTO person VALUES (?, ?, ?)", (number, number, f"u{number}@x.org"))
    base.execute("COMMIT")
E
# rate NAME INPUT WORD..: runs a program once on an input, with its output in a file, and says its rate by the clock and its processor time
rate() {
  python3 - "$count" "$@" <<'E'
import resource, subprocess, sys, time
count, name, source, *program = sys.argv[1:]
began = time.monotonic()
with open(source) as given, open("output", "w") as told:
    ended = subprocess.run(program, stdin=given, stdout=told).returncode
spent = time.monotonic() - began
used = resource.getrusage(resource.RUSAGE_CHILDREN)
if ended != 0:
    sys.exit(f"{name} ended with {ended}")
print(f"  {name:20}{int(count) / spent:9.0f} transactions a second, {spent:.2f} s, {used.ru_utime + used.ru_stime:.2f} s of processor time")
E
}
echo "$count transactions of one node each"
"$program" load store <schema >/dev/null
rate "pgguard apply" lines "$program" apply store
[ "$(grep -c ' committed ' output)" = "$count" ] || { echo "not every transaction was committed" >&2; exit 1; }
rate "two syncs a commit" /dev/null python3 disk.py "$count"
rate "SQLite, WAL, FULL" /dev/null python3 tables.py "$count"
