#!/usr/bin/env bash
# Times `evolve` over a checkpointed store: COUNT elements, half of them persons and half edges, with two keys, put under a schema that lets a person have a
# telephone number. It is the whole command, which reads the store, judges the graph under the new schema, builds its index and makes it durable. Beside it
# stands SQLite's own way to another table constraint, by Python's sqlite3 on a file: a new table with the constraints, all rows copied, the old one dropped
# and the new one renamed, with foreign keys checked. Both in one run, one after the other, three times; medians of the clock. The goal is under 3 s.
# Usage: bench/evolve.sh [COUNT [FOLDER]], 200,000 in a new folder of the system's unless said
set -eu
top=$(cd "$(dirname "$(readlink -f "${BASH_SOURCE[0]}")")/.." && pwd)
count=${1-200000}
work=$(mktemp -d ${2+-p "$2"})
work=$(readlink -f "$work")
trap 'rm -rf "$work"' EXIT
program=$("$top/tools/run" --path pgguard)
cd "$work"
schema() {
  echo "CREATE GRAPH TYPE g STRICT {(p: Person {id INT, mail STRING$1}), (:p)-[k: knows]->(:p), FOR (x:p) IDENTIFIER x.mail, FOR (x:p) IDENTIFIER x.id};"
}
schema '' >first
schema ', OPTIONAL phone STRING' >second
python3 - "$count" >lines <<'E'
import json, sys
half, ops = int(sys.argv[1]) // 2, []
for number in range(1, half + 1):
    ops.append({"add_node": number, "labels": ["Person"], "props": {"id": number, "mail": f"u{number}@x.org"}})
    ops.append({"add_edge": number, "from": number, "to": 1 + number * 7 % number, "labels": ["knows"]})
for first in range(0, len(ops), 10000):
    print(json.dumps({"ops": ops[first:first + 10000]}, separators=(",", ":")))
E
"$program" load kept <first >told
"$program" apply kept <lines >told
"$program" checkpoint kept >told
cat >tables.py <<'E'
import sqlite3, sys
base = sqlite3.connect(sys.argv[1], isolation_level=None)
if sys.argv[2] == "make":
    half = int(sys.argv[3]) // 2
    base.execute("CREATE TABLE person (node INTEGER PRIMARY KEY, id INTEGER NOT NULL UNIQUE, mail TEXT NOT NULL UNIQUE) STRICT")
    base.execute("CREATE TABLE knows (edge INTEGER PRIMARY KEY, source INTEGER NOT NULL REFERENCES person, target INTEGER NOT NULL REFERENCES person) STRICT")
    base.execute("BEGIN")
    base.executemany("INSERT INTO person VALUES (?, ?, ?)", ((n, n, f"u{n}@x.org") for n in range(1, half + 1)))
    base.executemany("INSERT INTO knows VALUES (?, ?, ?)", ((n, n, 1 + n * 7 % n) for n in range(1, half + 1)))
    base.execute("COMMIT")
else:
    base.execute("PRAGMA synchronous = FULL")
    base.execute("BEGIN")
    base.execute("CREATE TABLE new_person (node INTEGER PRIMARY KEY, id INTEGER NOT NULL UNIQUE, mail TEXT NOT NULL UNIQUE, phone TEXT) STRICT")
    base.execute("INSERT INTO new_person SELECT node, id, mail, NULL FROM person")
    base.execute("DROP TABLE person")
    base.execute("ALTER TABLE new_person RENAME TO person")
    if base.execute("PRAGMA foreign_key_check").fetchall():
        sys.exit("a foreign key is broken")
    base.execute("COMMIT")
E
python3 tables.py made make "$count"
python3 - "$program" "$count" <<'E'
import shutil, statistics, subprocess, sys, time
program, count = sys.argv[1:]
spent = {"evolve": [], "SQLite": []}
for turn in range(3):
    for end in "ab":
        shutil.copy(f"kept.{end}", f"turn.{end}")
    shutil.copy("made", "turn_tables")
    began = time.monotonic()
    with open("second") as given:
        told = subprocess.run([program, "evolve", "turn"], stdin=given, capture_output=True, text=True).stdout
    spent["evolve"].append(time.monotonic() - began)
    if told != "evolved types=2 keys=2\n":
        sys.exit(f"evolve told {told!r}")
    began = time.monotonic()
    subprocess.run([sys.executable, "tables.py", "turn_tables", "change"], check=True)
    spent["SQLite"].append(time.monotonic() - began)
both = {name: statistics.median(times) for name, times in spent.items()}
print(f"{count} elements, two keys: evolve {both['evolve']:.2f} s (goal 3), SQLite {both['SQLite']:.2f} s, {both['evolve'] / both['SQLite']:.2f} times as long")
E
