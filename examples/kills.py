"""Kills each tool of tools/ at random moments, and says whether what it leaves is whole: of its standard output whole lines, and each file that it names
either absent or all of it. Ends with 1 where one differs. Run by examples/tools.sh, in a folder of its own: python3 kills.py PGGUARD"""
import glob
import json
import os
import random
import shutil
import sqlite3
import subprocess
import sys
import time

TOOLS = os.path.join(os.path.dirname(os.path.dirname(os.path.abspath(__file__))), "tools")
KILLS = 2
different = 0


def told(name, holds):
    global different
    different |= not holds
    print(f"{name}: {'as expected' if holds else 'different'}")


def asked(*words, given=b""):
    """What a command prints, which has to end with 0."""
    return subprocess.run(words, stdout=subprocess.PIPE, input=given, check=True).stdout


def make_inputs(program):
    """A store with a feed, its dump, and the same graph as CSV."""
    asked(program, "load", "s", given=b"CREATE GRAPH TYPE g LOOSE {(p: P {name STRING}), (:p)-[linking: k]->(:p)};")
    ops = [{"add_node": number, "labels": ["P"], "props": {"name": f"{number}" * 20}} for number in range(3_000)]
    ops += [{"add_edge": number, "from": number, "to": number // 2, "labels": ["k"]} for number in range(3_000)]
    lines = [json.dumps({"ops": ops[at:at + 1_000]}) + "\n" for at in range(0, len(ops), 1_000)]
    asked(program, "apply", "s", "feed.jsonl", given="".join(lines).encode())
    for name, text in (("dump.txt", asked(program, "recover", "s")), ("schema.txt", asked(f"{TOOLS}/schema", "s"))):
        with open(name, "wb") as file:
            file.write(text)
    asked(f"{TOOLS}/dump-to-csv", "--exact", "csv", "dump.txt")


def kills(words):
    """Runs a tool to its end, then kills it some times; gives what it put then, time and again."""
    begun = time.monotonic()
    yield asked(*words), True
    lasts = time.monotonic() - begun
    for _ in range(KILLS):
        with open("put", "wb") as put, subprocess.Popen(words, stdout=put, stderr=subprocess.DEVNULL, stdin=subprocess.DEVNULL) as tool:
            time.sleep(random.uniform(0.2, 1) * lasts)
            tool.kill()
        with open("put", "rb") as put:
            yield put.read(), False


def puts_whole_lines(name, *words):
    (whole, _), *fronts = kills([f"{TOOLS}/{name}", *words])
    told(f"{name} that is killed puts whole lines", all(whole.startswith(front) and front[-1:] in (b"", b"\n") for front, _ in fronts))


def content(path):
    """What stands in a folder or a file, None where it is absent."""
    if path.endswith(".sqlite"):
        if not os.path.exists(path):
            return None
        base = sqlite3.connect(path)
        rows = [base.execute(f"SELECT * FROM {table} ORDER BY 1").fetchall() for table in ("graph_node", "graph_edge", "graph_commit")]
        base.close()
        return rows
    return {name: open(name, "rb").read() for name in sorted(glob.glob(f"{path}*"))} or None


def files_are_whole(name, path, *words, looks=content, goes_on=False):
    """Whether a tool that is killed leaves all that it makes, or nothing; or, where it goes on, all of it behind its next run."""
    wanted, holds, command = None, True, [f"{TOOLS}/{name}", *words]
    for _, is_whole in kills(command):
        if goes_on and not is_whole:
            asked(*command)
        found = looks(path)
        wanted = found if is_whole else wanted
        holds = holds and (found == wanted or (found is None and not goes_on))
        for made in glob.glob(f"{path}*"):
            shutil.rmtree(made) if os.path.isdir(made) else os.unlink(made)
    asked(*command)
    folder, base = os.path.split(path)
    told(f"{name} that is killed leaves all or nothing", holds and not glob.glob(os.path.join(folder, f".{glob.escape(base)}.new-*")))


def main(program):
    os.environ["PGGUARD"] = program
    make_inputs(program)
    for words in (["csv-to-lines", "--nodes", "csv/nodes.csv", "--edges", "csv/edges.csv"], ["dump-to-lines", "dump.txt"], ["feed-to-lines", "feed.jsonl"],
                  ["journal-to-feed", "s"], ["show-dot", "dump.txt"]):
        puts_whole_lines(*words)

    def recovered(path):
        """What `recover` prints of a store, also where one of its files alone is there; None of none."""
        there = [ending for ending in "ab" if os.path.exists(f"{path}.{ending}")]
        return asked(program, "recover", path) if there else None

    files_are_whole("backup", "kept/s", "s", "kept", looks=recovered)
    files_are_whole("restore", "made", "made", "--dump", "dump.txt", looks=recovered)
    files_are_whole("dump-to-csv", "exact", "--exact", "exact", "dump.txt", looks=lambda path: content(f"{path}/"))
    files_are_whole("dump-to-sqlite", "dump.sqlite", "--commit", "6", "dump.sqlite", "dump.txt")
    files_are_whole("feed-to-sqlite", "feed.sqlite", "feed.sqlite", "feed.jsonl", goes_on=True)
    sys.exit(different)


main(os.path.abspath(sys.argv[1]))
