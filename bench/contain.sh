#!/usr/bin/env bash
# Times `contain`. The schemas of examples/ that aren't refused, each against itself and against each other one: how many pairs there are, and the longest. Then
# made schemas against the same with one property more at each type, and the other way round: 50 node types of one label, whose five optional properties overlap; and
# with these 50 edge types whose ends are unions of five of them, each with a label of its own, and all with the same. Each time is the processor's of the whole program,
# system calls included, the least of three. It builds the program in a folder of its own, proving what no check has kept.
# Usage: bench/contain.sh; with PGGUARD=EXECUTABLE it times this one
source "$(dirname "$(readlink -f "${BASH_SOURCE[0]}")")/common.bash"
if [ -n "${PGGUARD:-}" ]; then
  built=$(readlink -f "$PGGUARD")
else
  take pgguard
  build pgguard contain
fi
python3 - "$built" "$top/examples" <<'P'
import glob, os, subprocess, sys

program, examples = sys.argv[1:]


def contain(first, second):
    """The status of the program and the time that it took, in milliseconds."""
    text = f"{first}\n---\n{second}".encode()
    times = []
    for _ in range(3):
        read, write = os.pipe()
        pid = os.fork()
        if pid == 0:
            os.dup2(read, 0)
            os.dup2(os.open(os.devnull, os.O_WRONLY), 1)
            os.close(read)
            os.close(write)
            os.execv(program, [program, "contain"])
        os.close(read)
        with os.fdopen(write, "wb") as given:
            given.write(text)
        _, status, used = os.wait4(pid, 0)
        times.append((used.ru_utime + used.ru_stime) * 1000)
    return os.waitstatus_to_exitcode(status), min(times)


def schema_part(text):
    lines = text.split("\n")
    ends = [place for place, line in enumerate(lines) if line in ("---", "---\r")]
    return "\n".join(lines[: ends[0]] if ends else lines)


found = {}
for file in sorted(glob.glob(f"{examples}/*/input.txt") + glob.glob(f"{examples}/*/schema.txt")):
    with open(file, newline="") as it:
        text = schema_part(it.read())
    if contain(text, text)[0] == 0:
        found[os.path.basename(os.path.dirname(file))] = text
longest = max((contain(first, second)[1], name, other) for name, first in found.items() for other, second in found.items())
print(f"examples: {len(found) ** 2} pairs, at most {longest[0]:.1f} ms: {longest[1]} against {longest[2]}")


def nodes(keys):
    return [f"(t{i}: Common {{{', '.join(f'OPTIONAL k{i + j} INT' for j in range(keys))}}})" for i in range(50)]


def edges(label):
    ends = ["|".join(f"t{(i + j) % 50}" for j in range(5)) for i in range(50)]
    return [f"(:{ends[i]})-[e{i}: {label(i)}]->(:{ends[(i + 7) % 50]})" for i in range(50)]


def schema(parts):
    return "CREATE GRAPH TYPE g STRICT {" + ", ".join(parts) + "};"


for what, more in [
    ("50 node types", []),
    ("and 50 edge types of as many labels", edges(lambda i: f"r{i}")),
    ("and 50 edge types of one label", edges(lambda i: "r")),
]:
    few, many = schema(nodes(5) + more), schema(nodes(6) + more)
    for way, first, second, wanted in [("less against more", few, many, 0), ("more against less", many, few, 1)]:
        status, time = contain(first, second)
        if status != wanted:
            sys.exit(f"{what}, {way}: the program ended with {status}")
        print(f"{what}, {way}: {time:.0f} ms")
P
