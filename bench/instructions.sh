#!/usr/bin/env bash
# Counts what a transaction, a validated line and a start cost, where a clock would say what else the machine did: instructions (Ir), and
# what misses an instruction cache of 32 KB (I1), by valgrind's cachegrind. Each number is that of a run of the whole work less that of a run
# of none, or of half of it, divided by the works; it is the same at each run over the same executable.
#
#   gen                a transaction of `gen 1000003`: a node and an edge, judged and taken
#   validate           a line of `validate`: a node under an exclusive key
#   start of recover   an element of a store of one checkpoint that is read, judged and put
#   start of apply     the same, read and judged
#
# Usage: bench/instructions.sh [COUNT], 20,000 works each unless said. Debian: apt-get install valgrind
set -eu
shopt -s inherit_errexit
top=$(cd "$(dirname "$(readlink -f "${BASH_SOURCE[0]}")")/.." && pwd)
program=$("$top/tools/run" --path pgguard)
work=$(mktemp -d)
trap 'rm -rf "$work"' EXIT
python3 - "$program" "$work" "${1-20000}" <<'E'
import re, subprocess, sys
program, work, count = sys.argv[1], sys.argv[2], int(sys.argv[3])
SCHEMA = "CREATE GRAPH TYPE g STRICT {(p: Person {id INT, mail STRING}), FOR (x:p) EXCLUSIVE x.mail};\n"
def lines(many):
    return "".join('{"ops":[{"add_node":%d,"labels":["Person"],"props":{"id":%d,"mail":"u%d@x.org"}}]}\n' % (number, number, number)
                   for number in range(1, many + 1))
def store(name, many):
    for command, given in ("load", SCHEMA), ("apply", lines(many)), ("checkpoint", ""):
        subprocess.run([program, command, name], input=given.encode(), stdout=subprocess.DEVNULL, cwd=work, check=True)
def counted(words, given=""):
    """The instructions of a run, and those that miss the first cache."""
    tool = ["valgrind", "--tool=cachegrind", "--cache-sim=yes", "--I1=32768,8,64", "--cachegrind-out-file=/dev/null"]
    ran = subprocess.run([*tool, program, *words], input=given.encode(), stdout=subprocess.DEVNULL, stderr=subprocess.PIPE, cwd=work, check=True)
    told = ran.stderr.decode()
    return [int(re.search(rf"{name}: *([\d,]+)", told)[1].replace(",", "")) for name in (r"I +refs", r"I1 +misses")]
def tell(name, works, whole, less):
    instructions, misses = ((one - other) / works for one, other in zip(whole, less))
    print(f"{name:18}{instructions:10,.0f} Ir {abs(misses):6,.0f} I1 misses")
tell("gen", count, counted(["gen", "1000003", str(count)]), counted(["gen", "1000003", "0"]))
tell("validate", count, counted(["validate"], SCHEMA + "---\n" + lines(count)), counted(["validate"], SCHEMA + "---\n"))
half = count // 2
store("whole", count)
store("half", half)
for command in "recover", "apply":
    tell(f"start of {command}", count - half, counted([command, "whole"]), counted([command, "half"]))
E
