#!/usr/bin/env bash
# Runs the commands that README and the pages of docs/ show, each page in a folder of its own and its blocks in their order, and compares what they print
# with what is shown; where PostgreSQL is installed on a server of their own. Ends with 1 where one differs. A block that needs a program that isn't
# installed is named and passed over.
# Usage: examples/guide.sh [PAGE..], as `examples/guide.sh docs/START.md`; with PGGUARD=FILE, PGFOLLOW=FILE, PGSESSION=FILE and PGCHECK=FILE in the
# environment these executables are run.
set -u
here=$(cd "$(dirname "$(readlink -f "${BASH_SOURCE[0]}")")/.." && pwd)
. "$here/examples/postgres.sh"
work=$(mktemp -d) || exit 1
trap 'stop_server; rm -rf "$work"' EXIT
ln -s "$here/examples" "$here/tools" "$here/clients" "$here/docs" "$here/crates" "$work/"
for name in pgguard pgfollow pgsession pgcheck; do
  given=${name^^}
  program=$(readlink -f "${!given:-$("$here/tools/run" --path "$name")}") || exit 1
  export "$given=$program"
  printf '#!/bin/sh\nexec %q "$@"\n' "$program" >"$work/$name"
  chmod +x "$work/$name"
done
server=
if [ -n "$(server_programs)" ]; then
  chmod 755 "$work"
  { start_server "$work/base" && createdb bank; } || exit 1
  server=yes
fi
python3 - "$here" "$work" "$server" "$@" <<'PYTHON'
"""Takes the fenced blocks of the pages apart. One marked `sh`, `sql` or `python` is run, and the block behind it, marked `output`, is what it prints. Without
such a block it prints what the example beside its input is known to print, or nothing. Lines of JSON with verdicts between them, and parts of a schema, are
those of an example."""
import concurrent.futures, glob, os, re, shutil, signal, subprocess, sys

top, work, server, *pages = sys.argv[1:]
PAGES = ["README.md"] + [f"docs/{name}.md" for name in
         ("START LANGUAGE COMMANDS ERRORS RECIPES OPERATIONS EVOLVING SESSIONS LIMITS PIPE PROMISE EMBEDDING GUIDE").split()]
RUN = {"sh": ["bash", "-c"], "sql": ["psql", "-q", "-At", "-v", "ON_ERROR_STOP=1", "bank", "-c"], "python": [sys.executable, "-c"]}
NEEDED = {"dot": ("graphviz", shutil.which("dot")), "psql": ("PostgreSQL", server)}
# What every page finds beside its own files.
THERE = "examples", "tools", "clients", "docs", "crates", "pgguard", "pgfollow", "pgsession", "pgcheck"


def blocks(text):
    found, info, body = [], None, []
    for number, line in enumerate(text.split("\n"), 1):
        if not re.match(r" *```", line) or info is not None and line.strip() != "```":
            body.append(line)
        elif info is None:
            info, body, begin = line.strip()[3:], [], number
        else:
            found.append((begin, info, "".join(f"{it}\n" for it in body)))
            info = None
    return found


def example(folder):
    """The schema's lines, the transactions and the verdicts by their numbers, of an example, and the texts of its files; of one that is a store's its
    schema alone."""
    if not os.path.isfile(f"{folder}/input.txt"):
        text = open(f"{folder}/schema.txt").read()
        return set(text.split("\n")), [], {}, (text,)
    texts = open(f"{folder}/input.txt").read(), open(f"{folder}/output.txt").read()
    schema, _, lines = texts[0].partition("\n---\n")
    verdicts = {it.split(" ", 1)[0]: it for it in texts[1].split("\n")}
    return set(schema.split("\n")), [it for it in lines.split("\n") if it.strip()], verdicts, texts


EXAMPLES = [example(os.path.dirname(file)) for name in ("input.txt", "schema.txt") for file in sorted(glob.glob(f"{top}/examples/**/{name}", recursive=True))
            if os.path.getsize(file) < 100_000]


def is_of(text, schema, lines, verdicts, texts):
    """Whether a block shows a part of an example, or lines of it: each transaction has the verdict behind it."""
    if any(text in whole for whole in texts):
        return True
    before, shown = None, text.rstrip("\n").split("\n")
    for line in shown:
        if line.startswith('{"ops"'):
            before = line
        elif re.match(r"[0-9]+ (committed|refused) ", line):
            number = line.split(" ", 1)[0]
            if verdicts.get(number) != line or lines[int(number) - 1] != (before or lines[int(number) - 1]):
                return False
            before = None
        elif line.strip() not in ("..", "") and line not in schema:
            return False
    return before is None or before in lines


def wanted(commands, behind):
    if behind and behind[1] == "output":
        return behind[2]
    found = re.search(r"< (examples/\w+)/input\.txt", commands)
    known = f"{top}/{found[1]}/output.txt" if found else ""
    return open(known).read() if os.path.isfile(known) else ""


def ended(words, folder):
    """The status of a block, and what it printed. One that doesn't end in two minutes is ended with all that it started."""
    child = subprocess.Popen(words, cwd=folder, stdin=subprocess.DEVNULL, stdout=subprocess.PIPE, stderr=subprocess.PIPE, text=True, start_new_session=True,
                             env={**os.environ, "PYTHONPATH": f"{top}/clients/python", "PYTHONDONTWRITEBYTECODE": "1"})
    try:
        out, told = child.communicate(timeout=120)
    except subprocess.TimeoutExpired:
        os.killpg(child.pid, signal.SIGKILL)
        out, told = child.communicate()
        told += "it didn't end\n"
    return child.returncode, out, told


def looked_at(page):
    """What is said of each block of a page, and how many are different."""
    said, different, folder = [], 0, f"{work}/of/{page}"
    os.makedirs(folder)
    for name in THERE:
        os.symlink(f"{work}/{name}", f"{folder}/{name}")
    with open(f"{top}/{page}") as file:
        found = blocks(file.read())
    for (begin, info, text), behind in zip(found, [*found[1:], None]):
        place = f"{page}:{begin}"
        if info not in RUN:
            if text.startswith(("./", "tools/")):
                said.append(f"{place}: commands that aren't marked sh")
            elif info == "" and re.match(r'\{"ops"|CREATE |  FOR |[0-9]+ [a-z{]', text) and not any(is_of(text, *it) for it in EXAMPLES):
                said.append(f"{place}: of no example")
            else:
                continue
            different += 1
            continue
        words = [*RUN[info], text]
        lacking = [its for name, (its, is_there) in NEEDED.items() if re.search(rf"(?<![\w-]){name}\b", " ".join(words)) and not is_there]
        if lacking:
            said.append(f"{place}: passed over, since {lacking[0]} isn't installed")
            continue
        status, out, told = ended(words, folder)
        if out == wanted(text, behind) and not told and 0 <= status < 5:
            said.append(f"{place}: as shown")
        else:
            different += 1
            said.append(f"{place}: different, status {status}\n{out}{told}")
    return said, different


with concurrent.futures.ThreadPoolExecutor(os.cpu_count()) as side_by_side:
    ended = list(side_by_side.map(looked_at, pages or [page for page in PAGES if os.path.isfile(f"{top}/{page}")]))
for said, _ in ended:
    for line in said:
        print(line)
sys.exit(1 if any(different for _, different in ended) else 0)
PYTHON
