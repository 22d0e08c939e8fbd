#!/usr/bin/env bash
# How dear one transaction is where the graph has hubs: for each of some schemas and graphs, the processor's time of one transaction more, beside
# that of `validate` over the graph after it, by the released executable or the one that PGGUARD names. A transaction's time is the difference of two
# runs of `try`, over the graph and over the graph with so many lines more, by their number; each run is the least of three. Ratios are of one
# run, so other work on the machine changes them little. In the last case it is a start of a store, and not a transaction.
# Usage: bench/hubs.sh [WORD..]    only the cases whose name has one of the words
set -eu
top=$(cd "$(dirname "$(readlink -f "${BASH_SOURCE[0]}")")/.." && pwd)
exec python3 - "${PGGUARD:-$top/release/pgguard-x86_64-linux}" "$@" <<'P'
import json
import resource
import subprocess
import sys
import tempfile

PROGRAM, WORDS = sys.argv[1], sys.argv[2:]


def node(number, label, **props):
    return {"add_node": number, "labels": [label], "props": props}


def edge(number, source, target, label):
    return {"add_edge": number, "from": source, "to": target, "labels": [label]}


def changed(number, key, value):
    return {"set_node": number, "key": key, "value": value}


def lines(operations, most=5000):
    """Operations as transactions of at most so many."""
    return [{"ops": operations[at:at + most]} for at in range(0, len(operations), most)]


def star(leaves, label="r", hub="A", leaf="B"):
    """A hub, node 1, with edges to so many leaves."""
    found = [node(1, hub)]
    for number in range(2, leaves + 2):
        found += [node(number, leaf), edge(number, 1, number, label)]
    return found


def schema(mode, types, *keys):
    return "CREATE GRAPH TYPE g %s {%s};" % (mode, ", ".join([*types, *keys]))


def seconds(text, *words, folder=None):
    """The processor's time of a run over a text, the least of three."""
    best = None
    with tempfile.TemporaryFile() as given:
        given.write(text.encode())
        for _ in range(3):
            given.seek(0)
            before = resource.getrusage(resource.RUSAGE_CHILDREN)
            ended = subprocess.run([PROGRAM, *(words or ["try"])], cwd=folder, stdin=given, stdout=subprocess.DEVNULL, stderr=subprocess.DEVNULL).returncode
            after = resource.getrusage(resource.RUSAGE_CHILDREN)
            if ended not in (0, 1):
                sys.exit(f"{words} ended with {ended}")
            used = after.ru_utime + after.ru_stime - before.ru_utime - before.ru_stime
            best = used if best is None else min(best, used)
    return best


def text_of(declared, transactions):
    return "\n".join([declared, "---", *[json.dumps(it, separators=(",", ":")) for it in transactions]]) + "\n"


def measured(declared, graph, more):
    """Milliseconds of one transaction of more, and of `validate` over the graph behind them."""
    before, after = text_of(declared, graph), text_of(declared, graph + more)
    one = max(0.0, seconds(after) - seconds(before)) / len(more)
    return 1000 * one, 1000 * seconds(after, "validate")


TYPES = ["(a: A OPEN {OPEN})", "(b: B OPEN {OPEN})", "(:a)-[e: r]->(:b)"]
EXCLUSIVE = "FOR (x:A) EXCLUSIVE y WITHIN (x)-[:r]->(y)"


def noted(number, count):
    return [{"ops": [changed(number, "note", str(place))]} for place in range(count)]


def grown(leaves, count):
    first = leaves + 2
    return [{"ops": [node(at, "B"), edge(at, 1, at, "r")]} for at in range(first, first + count)]


def beside_keys(mode, at):
    """A property beside the keys at the hub of 4,000 (node 1) or at a leaf of the same graph, so often that it is well above the noise."""
    return measured(schema(mode, TYPES, EXCLUSIVE), lines(star(4000)), noted(at, 20_000))


def one_more(leaves):
    return measured(schema("LOOSE", TYPES, EXCLUSIVE), lines(star(leaves)), grown(leaves, 20))


def two_branches(count):
    """A node with so many edges in and out, under a key that asks for both."""
    graph = [node(1, "Lot", seal="s")]
    for at in range(count):
        graph += [node(10 + at, "Port"), edge(10 + at, 1, 10 + at, "moves"), node(100_000 + at, "Foreign"), edge(100_000 + at, 100_000 + at, 1, "supplies")]
    key = "FOR (l:Lot)-[:moves]->(:Port), (l)<-[:supplies]-(:Foreign) MANDATORY l.seal"
    return measured(schema("LOOSE", [], key), lines(graph), noted(1, 20))


def four_branches(count, last):
    """A scope of four branches at a node of so many edges, of which the last one's can't be given."""
    scope = ", ".join("%s-[:r]->(:%s)" % branch for branch in (("(x:A)", "B"), ("(x)", "B"), ("(x)", "B"), ("(x)", "D" if last else "B")))
    declared = schema("LOOSE", [], "FOR %s MANDATORY x.k" % scope)
    return measured(declared, lines(star(count)), [{"ops": [node(9000, "B"), edge(9000, 1, 9000, "r")]}])


def typed(leaves):
    return measured(schema("STRICT", TYPES), lines(star(leaves)), noted(1, 50))


def chain(count):
    """Two steps over a hub: payers, a hub and payees."""
    graph = [node(1, "Hub")]
    for at in range(count):
        graph += [node(10 + at, "P"), edge(10 + at, 10 + at, 1, "pay")]
    more = [{"ops": [node(100_000 + at, "Q"), edge(100_000 + at, 1, 100_000 + at, "pay")]} for at in range(20)]
    return measured(schema("LOOSE", [], "FOR (x:P) EXCLUSIVE y WITHIN (x)-[:pay]->(:Hub)-[:pay]->(y:R)"), lines(graph), more)


def rings(count):
    """One line that makes a hub with so many payers and payees, and a ring of three through it, under a key that asks for such rings."""
    made = [node(1, "A")]
    for at in range(count):
        payer, payee = 10 + 2 * at, 11 + 2 * at
        made += [node(payer, "A"), edge(payer, payer, 1, "pays"), node(payee, "A"), edge(payee, 1, payee, "pays")]
    made.append(edge(5, 11, 10, "pays"))
    key = "FOR (x:A) COUNT 0..2 OF y WITHIN (x)-[:pays]->(y:A)-[:pays]->(z:A)-[:pays]->(x)"
    return measured(schema("LOOSE", [], key), [{"ops": [node(2, "A")]}], [{"ops": made}])


def behind_hub(count):
    """So many elements at a hub, of whose scope the other branch at the hub isn't there, and one edge more."""
    graph = [node(1, "H", t=1)]
    for at in range(count):
        graph += [node(10 + at, "A"), edge(10 + at, 10 + at, 1, "r")]
    more = [{"ops": [node(100_000 + at, "A"), edge(100_000 + at, 100_000 + at, 1, "r")]} for at in range(20)]
    return measured(schema("LOOSE", [], "FOR (x:A)-[:r]->({t: 1})<-[:r]-(:D) MANDATORY x.k"), lines(graph), more)


def two_places(count):
    """A value at one node, from which so many ways lead over a hub to as many elements."""
    graph = [node(1, "V", t=2), node(2, "H")]
    for at in range(count):
        graph += [node(10 + at, "M"), edge(10 + at, 1, 10 + at, "r"), edge(200_000 + at, 10 + at, 2, "r")]
        graph += [node(100_000 + at, "X", k=1), edge(100_000 + at, 2, 100_000 + at, "r")]
    key = "FOR (x:X)<-[:r]-(:H)<-[:r]-(:M)<-[:r]-(:V {t: 1}) MANDATORY x.k"
    return measured(schema("LOOSE", [], key), lines(graph), [{"ops": [changed(1, "t", 1 + at % 2)]} for at in range(10)])


def values_over_hub(count):
    """So many elements at a hub that get a value over it, which also has so many edges that lead to none, and one value more at the hub."""
    graph = [node(1, "Hub"), node(2, "R"), edge(2, 1, 2, "pay")]
    for at in range(count):
        graph += [node(10 + at, "P"), edge(10 + at, 10 + at, 1, "pay"), node(100_000 + at, "Q"), edge(100_000 + at, 1, 100_000 + at, "pay")]
    more = [{"ops": [node(200_000 + at, "R"), edge(200_000 + at, 1, 200_000 + at, "pay")]} for at in range(5)]
    key = "FOR (x:P) MANDATORY y WITHIN (x)-[:pay]->(:Hub)-[:pay]->(y:R)"
    return measured(schema("LOOSE", [], key), lines(graph[:3]) + lines(graph[3:], 4000), more)


def start(leaves, count):
    """A start of a store that replays a hub of so many values and so many records more, each of a value more."""
    declared, records = schema("LOOSE", TYPES, EXCLUSIVE), lines(star(leaves), 10_000) + grown(leaves, count)
    with tempfile.TemporaryDirectory() as folder:
        for words, text in (["load", "hub"], declared), (["apply", "hub"], "".join(json.dumps(it) + "\n" for it in records)):
            subprocess.run([PROGRAM, *words], cwd=folder, input=text.encode(), stdout=subprocess.DEVNULL, check=True)
        return 1000 * seconds("", "apply", "hub", folder=folder), 1000 * seconds(text_of(declared, records), "validate")


CASES = [
    ("a property beside the keys, leaf (LOOSE)", lambda: beside_keys("LOOSE", 2)),
    ("a property beside the keys, hub of 4000 (LOOSE)", lambda: beside_keys("LOOSE", 1)),
    ("a property beside the keys, leaf (STRICT)", lambda: beside_keys("STRICT", 2)),
    ("a property beside the keys, hub of 4000 (STRICT)", lambda: beside_keys("STRICT", 1)),
    ("one edge more at 1000 values", lambda: one_more(1000)),
    ("one edge more at 2000 values", lambda: one_more(2000)),
    ("one edge more at 4000 values", lambda: one_more(4000)),
    ("types alone, leaf (STRICT)", lambda: typed(1)),
    ("types alone, hub of 4000 (STRICT)", lambda: typed(4000)),
    ("two branches of 1000, a property beside the keys", lambda: two_branches(1000)),
    ("four branches of 30, all given", lambda: four_branches(30, False)),
    ("four branches of 30, the last not given", lambda: four_branches(30, True)),
    ("two steps over a hub of 400, one edge", lambda: chain(400)),
    ("rings of three through a hub of 300, by one line", lambda: rings(300)),
    ("rings of three through a hub of 600, by one line", lambda: rings(600)),
    ("a scope behind a hub of 1000, none given", lambda: behind_hub(1000)),
    ("a scope behind a hub of 2000, none given", lambda: behind_hub(2000)),
    ("a scope behind a hub of 4000, none given", lambda: behind_hub(4000)),
    ("500 ways over a hub to 500 elements, one value", lambda: two_places(500)),
    ("1000 ways over a hub to 1000 elements, one value", lambda: two_places(1000)),
    ("values over a hub of 500 that leads to few", lambda: values_over_hub(500)),
    ("values over a hub of 1000 that leads to few", lambda: values_over_hub(1000)),
    ("values over a hub of 2000 that leads to few", lambda: values_over_hub(2000)),
    ("a start that replays 61 records, hub of 4000", lambda: start(4000, 60)),
]

TAKEN = {}
for name, case in CASES:
    if WORDS and not any(word in name for word in WORDS):
        continue
    one, whole = case()
    TAKEN[name] = one
    leaf = TAKEN.get(name.replace("hub of 4000", "leaf")) if "beside the keys, hub" in name else None
    beside = f"; {one / leaf:5.2f} times the leaf" if leaf else ""
    print(f"{name:52} {one:9.3f} ms a transaction; validate {whole:9.1f} ms; {one / whole if whole else 0:7.3f} times{beside}", flush=True)
P
