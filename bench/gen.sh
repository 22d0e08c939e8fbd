#!/usr/bin/env bash
# Times the program's generated workload: `gen START COUNT`, a transaction a node and an edge, each judged before it is taken. Beside it
# stand the same transactions under the same constraints by plain Rust over the standard library's maps, and by SQLite in memory, by
# Python's sqlite3. For each it says how many transactions a second of processor time it takes, by the median of five turns in which the
# three follow one another; how many times as long the program takes as each of the others; and how many times as long from the start by
# which all edges lead to few persons (5) as from that by which they are spread (1000003). The bars are 2.5 times as many transactions as
# SQLite, 2.5 times as long as plain Rust, and 1.5 times as long with few persons as with spread ones.
# Usage: bench/gen.sh [COUNT..], 200,000 unless said
set -eu
shopt -s inherit_errexit
top=$(cd "$(dirname "$(readlink -f "${BASH_SOURCE[0]}")")/.." && pwd)
work=$(mktemp -d)
trap 'rm -rf "$work"' EXIT
[ $# -gt 0 ] || set -- 200000
cat >"$work/tables.py" <<'E'
import sqlite3, sys
start, count = int(sys.argv[1]), int(sys.argv[2])
base = sqlite3.connect(":memory:", isolation_level=None)
base.execute("PRAGMA foreign_keys = ON")
base.execute("CREATE TABLE person (node INTEGER PRIMARY KEY, id INTEGER NOT NULL UNIQUE, mail TEXT NOT NULL UNIQUE) STRICT")
base.execute("CREATE TABLE knows (edge INTEGER PRIMARY KEY, source INTEGER NOT NULL REFERENCES person, target INTEGER NOT NULL REFERENCES person) STRICT")
base.execute("CREATE INDEX outgoing ON knows (source)")
base.execute("CREATE INDEX incoming ON knows (target)")
for number in range(1, count + 1):
    base.execute("BEGIN")
    base.execute("INSERT INTO person VALUES (?, ?, ?)", (number, number, f"u{number}@x.org"))
    if number >= 2:
        target = 1 + (start % 4294967296 + 7 * number) % (number - 1)
        base.execute("INSERT INTO knows VALUES (?, ?, ?)", (number, number, target))
    base.execute("COMMIT")
first = lambda query: base.execute(query).fetchone()[0]
nodes, edges = first("SELECT count(*) FROM person"), first("SELECT count(*) FROM knows")
into_first = first("SELECT count(*) FROM knows WHERE target = 1")
print(f"gen committed={count} refused=0 nodes={nodes} edges={edges} in1={into_first}")
E
rustc -O -A warnings -o "$work/bare" "$top/bench/peers/generated.rs"
program=$("$top/tools/run" --path pgguard)
# compare COUNT PGGUARD BARE TABLES: the three programs, in turns, from both starts. Each has to write the line that the plain one writes.
compare() {
  python3 - "$@" <<'E'
import resource, statistics, subprocess, sys
count, pgguard, bare, tables = sys.argv[1:]
programs = {"pgguard": [pgguard, "gen"], "Rust": [bare], "SQLite": ["python3", tables]}
def used():
    spent = resource.getrusage(resource.RUSAGE_CHILDREN)
    return spent.ru_utime + spent.ru_stime
def run(name, start, count):
    before = used()
    ended = subprocess.run([*programs[name], start, count], capture_output=True, text=True)
    if ended.returncode != 0:
        sys.exit(f"{name} ended with {ended.returncode}")
    return used() - before, ended.stdout
def taken(start):
    line = run("Rust", start, count)[1]
    print(f"gen {start} {count}: {line[len('gen '):].rstrip()}")
    spent = {name: [] for name in programs}
    for _ in range(5):
        for name in programs:
            none, _ = run(name, start, "0")
            seconds, told = run(name, start, count)
            if told != line:
                sys.exit(f"{name} wrote {told!r}, not {line!r}")
            spent[name].append(max(seconds - none, 1e-6))
    medians = {name: statistics.median(times) for name, times in spent.items()}
    for name, median in medians.items():
        print(f"  {name:8}{int(count) / median:9.0f} transactions a second, {median:.3f} s")
    print(f"  {medians['SQLite'] / medians['pgguard']:.2f} times as many as SQLite, {medians['pgguard'] / medians['Rust']:.2f} times as long as plain Rust")
    return medians["pgguard"]
spread = taken("1000003")
print(f"few persons take {taken('5') / spread:.2f} times as long as spread ones")
E
}
for count in "$@"; do
  compare "$count" "$program" "$work/bare" "$work/tables.py"
done
