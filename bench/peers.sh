#!/usr/bin/env bash
# Times the program beside what a user would pick instead: SQLite (by a small C program with prepared statements), plain Rust over the
# standard library's maps and serde_json, and what this disk takes for the same writes and syncs. The generated transactions meet Rust twice:
# with labels and properties in ordered sets and maps, judged first and then done; and by hash maps over rows in vectors, judged and done at
# once. All works are done once a turn, one after another, so that whatever else the machine does meets all of them alike; then the medians of
# all turns and their ratios are printed as a table, with the goal of each, and what machine it was. Where work waits on a disk the clock is
# compared, else the processor's time, system calls included. A peer that isn't installed is left out, and so said.
#
# The program of bench/json.sh, by which the reading of lines is compared with `from_slice` of serde_json's port, is proved and built first,
# where no check has kept what it stands on; `--no-build` leaves it out.
# Usage: bench/peers.sh [--no-build] [TURNS [PART [FOLDER]]], 5 turns of the whole work in the folder where it is called unless said; with a
# PART of 100 each work is a hundredth. Debian: apt-get install gcc libsqlite3-dev cargo librust-serde-json-dev
set -eu
shopt -s inherit_errexit
bench=$(dirname "$(readlink -f "${BASH_SOURCE[0]}")")
building=true
[ "${1-}" != --no-build ] || { building=false; shift; }
turns=${1-5} part=${2-1}
work=$(mktemp -d -p "${3-.}")
work=$(readlink -f "$work")
# Where syncs cost nothing: a store of many records is made there, and the start is measured there.
memory=$(mktemp -d -p "$([ -w /dev/shm ] && echo /dev/shm || echo "$work")")
trap 'rm -rf "$work" "$memory"' EXIT
program=$("$bench/../tools/run" --path pgguard)
left_out() {
  echo "left out: $1 ($2)"
}
# compiled NAME WORD..: builds a peer, or leaves it out. What the compiler says is kept for who asks why.
compiled() {
  "${@:2}" >"$work/$1.log" 2>&1 || left_out "$1" "not built: $(tail -n 1 "$work/$1.log")"
}
compiled disk gcc -O2 -o "$work/disk" "$bench/peers/disk.c"
compiled SQLite gcc -O2 -o "$work/tables" "$bench/peers/tables.c" -lsqlite3
for peer in generated hashed; do
  compiled "Rust ($peer)" rustc -O -A warnings -o "$work/$peer" "$bench/peers/$peer.rs"
done
# serde_json comes from Debian's sources, without a network.
mkdir -p "$work/reading/src" "$work/reading/.cargo"
cp "$bench/peers/reading.rs" "$work/reading/src/main.rs"
printf '[package]\nname = "reading"\nversion = "0.0.0"\nedition = "2021"\n[dependencies]\nserde_json = "1"\n' >"$work/reading/Cargo.toml"
printf '[source.crates-io]\nreplace-with = "debian"\n[source.debian]\ndirectory = "/usr/share/cargo/registry"\n' >"$work/reading/.cargo/config.toml"
compiled serde_json env -C "$work/reading" CARGO_TARGET_DIR="$work/reading/target" cargo build --release --offline
if "$building"; then
  compiled lines env keep="$work/lines" "$bench/json.sh"
else
  left_out lines "--no-build"
fi
python3 - "$program" "$work" "$memory" "$turns" "$part" <<'E'
import os, platform, re, shutil, sqlite3, statistics, subprocess, sys, time
program, work, memory, turns, part = *sys.argv[1:4], int(sys.argv[4]), int(sys.argv[5])
of = lambda whole: max(whole // part, 1)
persons, commits, transactions, held = of(200_000), of(5_000), of(200_000), of(1_000_000)
load_before = os.getloadavg()[0]
at = lambda name: os.path.join(work, name)

# Schemas and lines.
PERSON = "(p: Person {id INT, mail STRING})"
ONE_KEY = f"CREATE GRAPH TYPE g STRICT {{{PERSON}, FOR (x:p) EXCLUSIVE x.mail}};\n"
TWO_KEYS = f"CREATE GRAPH TYPE g STRICT {{{PERSON}, FOR (x:p) IDENTIFIER x.mail, FOR (x:p) IDENTIFIER x.id}};\n"
def op(number):
    return '{"add_node":%d,"labels":["Person"],"props":{"id":%d,"mail":"u%d@x.org"}}' % (number, number, number)
def write(name, head, count, together=1):
    with open(at(name), "w") as text:
        text.write(head)
        for first in range(1, count + 1, together):
            text.write('{"ops":[%s]}\n' % ",".join(map(op, range(first, min(first + together, count + 1)))))
for name, text in ("one_key", ONE_KEY), ("nothing", ""):
    with open(at(name), "w") as made:
        made.write(text)
write("commits.lines", "", commits)
write("persons.lines", "", persons)
write("validate.lines", ONE_KEY + "---\n", persons)
write("held.lines", TWO_KEYS + "---\n", held, together=100)

# Stores: an empty one, one of many records, the same after a checkpoint, and one of a checkpoint of as many elements as are held at most.
def guard(words, source, folder=work):
    with open(at(source)) as given:
        subprocess.run([program, *words], stdin=given, stdout=subprocess.DEVNULL, cwd=folder, check=True)
def copied(name, to, folder=work):
    for area in "ab":
        shutil.copy(os.path.join(memory, f"{name}.{area}"), os.path.join(folder, f"{to}.{area}"))
for name in "empty", "records":
    guard(["load", name], "one_key", memory)
guard(["apply", "records"], "persons.lines", memory)
copied("records", "records")
guard(["checkpoint", "records"], "nothing", memory)
copied("records", "checkpoint")
with open(at("held.lines")) as given, open(at("held.apply"), "w") as taken:
    given.readline(), given.readline()
    shutil.copyfileobj(given, taken)
guard(["load", "held"], "one_key", memory)
guard(["apply", "held"], "held.apply", memory)
guard(["checkpoint", "held"], "nothing", memory)

def spent(command, source="nothing", folder=work, before=lambda: None):
    """A run's seconds by the clock, those of the processor, and the most bytes that it held, which are never less than this script's own."""
    before()
    with open(at(source)) as given, open(os.devnull, "w") as told:
        began = time.monotonic()
        child = subprocess.Popen(command, stdin=given, stdout=told, cwd=folder)
        _, status, used = os.wait4(child.pid, 0)
        clock = time.monotonic() - began
    child.returncode = os.waitstatus_to_exitcode(status)
    if child.returncode != 0:
        sys.exit(f"{command} ended with {child.returncode}")
    return clock, used.ru_utime + used.ru_stime, used.ru_maxrss * 1024

record = os.path.getsize(at("records.a")) // persons
def fresh(folder=work):
    copied("empty", "durable", folder)
    for name in "tables.db", "tables.db-wal", "tables.db-shm":
        if os.path.exists(at(name)):
            os.remove(at(name))
TURN = ["turn"] * 100
# name: its executable, its words, and what spent() is told beside
RUNS = {
    "gen": (program, ["gen", "1000003", str(transactions)], {}),
    "gen, SQLite": (at("tables"), ["gen", "1000003", str(transactions)], {}),
    "gen, Rust": (at("generated"), ["1000003", str(transactions)], {}),
    "gen, hashed": (at("hashed"), ["1000003", str(transactions)], {}),
    "apply": (program, ["apply", "durable"], {"source": "commits.lines", "before": fresh}),
    "apply, disk": (at("disk"), [at("disk.area"), str(commits), str(record)], {}),
    "apply, no syncs": (program, ["apply", "durable"], {"source": "commits.lines", "folder": memory, "before": lambda: fresh(memory)}),
    "disk, no syncs": (at("disk"), [os.path.join(memory, "disk.area"), str(commits), str(record)], {}),
    "apply, SQLite": (at("tables"), ["commits", at("tables.db"), str(commits)], {"before": fresh}),
    "validate": (program, ["validate"], {"source": "validate.lines"}),
    "validate, SQLite": (at("tables"), ["validate"], {"source": "validate.lines"}),
    "validate, Rust": (at("reading/target/release/reading"), [], {"source": "validate.lines"}),
    "recover": (program, ["recover", "records"], {}),
    "checkpoint": (program, ["recover", "checkpoint"], {}),
    "lines, none": (at("lines"), ["generated", "read"], {}),
    "lines": (at("lines"), ["generated", "read", *TURN], {}),
    "lines, from_slice": (at("lines"), ["generated", "parse", *TURN], {}),
    "long, none": (at("lines"), ["operations", "read"], {}),
    "long": (at("lines"), ["operations", "read", *TURN[:10]], {}),
    "long, from_slice": (at("lines"), ["operations", "parse", *TURN[:10]], {}),
    "held": (program, ["try"], {"source": "held.lines"}),
    "held, SQLite": (at("tables"), ["persons", str(held)], {}),
    "held start": (program, ["apply", "held"], {"folder": memory}),
    "start": (program, ["apply", "empty"], {"folder": memory}),
}
found = {name: [] for name in RUNS}
for turn in range(turns):
    for name, (executable, words, told) in RUNS.items():
        if os.path.exists(executable):
            found[name].append(spent([executable, *words], **told))
def median(name, which):
    return statistics.median(one[which] for one in found[name]) if found[name] else None
clock, processor, bytes_held = ({name: median(name, which) for name in RUNS} for which in range(3))

rows = []
def add(text, taken, beside, value, goal, met):
    rows.append((text, taken, beside, value, goal, "yes" if met else "no"))
def times(text, own, peer, kind, words, goal, more):
    """How many times as long one takes as the other: the peer as the program where `more` is asked, else the program as the peer."""
    if kind[own] is None or kind[peer] is None:
        return
    ratio = kind[peer] / kind[own] if more else kind[own] / kind[peer]
    sign, met = (">=", ratio >= goal) if more else ("<=", ratio <= goal)
    add(text, f"{kind[own]:.3f} s", f"{words} {kind[peer]:.3f} s", f"{ratio:.2f} times", f"{sign} {goal}", met)

work_of = f"gen 1000003 {transactions:,}"
times(work_of, "gen", "gen, SQLite", processor, "SQLite in memory", 3.5, True)
times(work_of, "gen", "gen, Rust", processor, "plain Rust, ordered rows", 2, False)
times(work_of, "gen", "gen, hashed", processor, "plain Rust, hash maps, Vec rows", 1.4, False)
work_of = f"{commits:,} commits by apply"
if clock["apply, disk"] is not None:
    # The second says what is the program's own where syncs take long and each time another time.
    pairs = [(work_of, "apply", "apply, disk"), ("the same where syncs are free", "apply, no syncs", "disk, no syncs")]
    for text, own, peer in pairs if memory.startswith("/dev/shm") else pairs[:1]:
        more = (clock[own] - clock[peer]) / commits * 1e6
        most = 25 if own == "apply" else 8
        add(text, f"{clock[own]:.3f} s", f"this disk {clock[peer]:.3f} s", f"{more:.1f} us more each", f"<= {most} us", more <= most)
    sync = clock["apply, disk"] / commits / 2 * 1e3
    if sync < 0.1:
        times(work_of, "apply", "apply, SQLite", clock, "SQLite, WAL, FULL", 1, True)
    elif clock["apply, SQLite"] is not None:
        rows.append((work_of, f"{clock['apply']:.3f} s", f"SQLite, WAL, FULL {clock['apply, SQLite']:.3f} s",
                     f"{clock['apply, SQLite'] / clock['apply']:.2f} times", f"none: a sync takes {sync:.2f} ms", ""))
work_of = f"validate of {persons:,} lines"
times(work_of, "validate", "validate, SQLite", processor, "SQLite's load and check", 1.5, True)
times(work_of, "validate", "validate, Rust", processor, "plain Rust, serde_json", 1.2, False)
durably = clock["apply"] * persons / commits
ratio = durably / processor["recover"]
add(f"recover of {persons:,} records", f"{processor['recover']:.3f} s", f"applied durably {durably:.1f} s, at the rate above", f"{ratio:.1f} times", ">= 5", ratio >= 5)
add("the same from a checkpoint", f"{processor['checkpoint']:.3f} s", "", "", "<= 0.5 s", processor["checkpoint"] <= 0.5)
for text, name in ("1,000 lines as transactions", "lines"), ("a line of 10,000 operations", "long"):
    if found[name]:
        own, peer = (processor[one] - processor[f"{name}, none"] for one in (name, f"{name}, from_slice"))
        add(text, f"{own:.3f} s", f"from_slice {peer:.3f} s", f"{own / peer:.2f} times", "<= 1.3", own / peer <= 1.3)
beside = f"SQLite, two unique columns {bytes_held['held, SQLite'] / held:.0f} bytes" if found["held, SQLite"] else ""
add(f"{held:,} elements, two keys", f"{bytes_held['held'] / 1e6:.0f} MB", beside, f"{bytes_held['held'] / held:.0f} bytes each", "<= 550", bytes_held["held"] <= 550 * held)
add(f"start of apply at {held:,} elements", f"{processor['held start']:.2f} s", "from a checkpoint", f"{bytes_held['held start'] / 1e6:.0f} MB", "<= 3.2 s, 384 MB",
    processor["held start"] <= 3.2 * held / 1e6 and bytes_held["held start"] <= 384 * held)
add("start and end, empty store", f"{clock['start'] * 1e3:.2f} ms", "", "", "<= 3 ms", clock["start"] <= 0.003)

def said(*command):
    try:
        return subprocess.run(command, capture_output=True, text=True).stdout.split("\n")[0]
    except OSError:
        return f"no {command[0]}"
def kind_of(folder):
    return subprocess.run(["df", "--output=fstype", folder], capture_output=True, text=True).stdout.split()[-1]
model = re.search(r"model name\s*: (.*)", open("/proc/cpuinfo").read())
print(f"\n{os.cpu_count()} processors ({model[1] if model else platform.machine()}), {platform.system()} {platform.release()}; load {load_before:.1f} before, "
      f"{os.getloadavg()[0]:.1f} after; files on {kind_of(work)}, the start on {kind_of(memory)}; "
      f"SQLite {sqlite3.sqlite_version}, {said('rustc', '--version')}; medians of {turns} turns")
heads = ("Work", "pgguard", "beside it", "so", "goal", "met")
widths = [max(len(row[place]) for row in [heads, *rows]) for place in range(6)]
for row in [heads, ["-" * width for width in widths], *rows]:
    print("| " + " | ".join(cell.ljust(width) for cell, width in zip(row, widths)) + " |")
E
