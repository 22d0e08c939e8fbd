#!/usr/bin/env bash
# Whether some drawn pattern makes one transaction much dearer than `validate` over the graph after it: keys whose patterns have no cycle, and keys
# of which one has, over drawn graphs with hubs and drawn changes, by the released executable or the one that PGGUARD names. As in hubs.sh a
# transaction's time is the difference of two runs of `try`, over the graph and over the graph with so many lines more, by their number; the
# line that makes the graph is a decision too, with the program's start. What seems a little too dear is measured again, the least of three. Too
# dear is above 3 times `validate` and 1 ms. The status is 1 where a decision without a cycle is.
# Usage: bench/drawn.sh [SEED [TREES [RINGS [FOLDER]]]]    67, 300 and 100 where left out; the worst texts are written into the folder
set -eu
top=$(cd "$(dirname "$(readlink -f "${BASH_SOURCE[0]}")")/.." && pwd)
exec python3 - "${PGGUARD:-$top/release/pgguard-x86_64-linux}" "$@" <<'P'
import json
import os
import random
import resource
import subprocess
import sys
import tempfile

PROGRAM, WORDS = sys.argv[1], sys.argv[2:]
SEED, TREES, RINGS = (int(WORDS[at]) if len(WORDS) > at else kept for at, kept in enumerate((67, 300, 100)))
FOLDER = WORDS[3] if len(WORDS) > 3 else None
LIMIT = 3  # whole seconds of one run: what goes on longer is told as so much
LONGEST = 0.3  # seconds of `validate`, above which another case is drawn
LABELS, EDGE_LABELS = "AB", "rs"
TYPES = ["(ta: A OPEN {OPEN})", "(tb: B OPEN {OPEN})", "(:ta|tb)-[tr: r {OPEN}]->(:ta|tb)", "(:ta|tb)-[ts: s {OPEN}]->(:ta|tb)"]


class TooLong(Exception):
    """A run went on above the limit."""


def limited():
    resource.setrlimit(resource.RLIMIT_CPU, (LIMIT, LIMIT))
    resource.setrlimit(resource.RLIMIT_AS, (4 << 30, 4 << 30))


def run(text, word):
    """The processor's time of a run over a text, what it printed, and its status."""
    with tempfile.TemporaryFile() as given:
        given.write(text.encode())
        given.seek(0)
        before = resource.getrusage(resource.RUSAGE_CHILDREN)
        ended = subprocess.run([PROGRAM, word], stdin=given, stdout=subprocess.PIPE, stderr=subprocess.DEVNULL, preexec_fn=limited)
        after = resource.getrusage(resource.RUSAGE_CHILDREN)
    if ended.returncode < 0:
        raise TooLong
    if ended.returncode not in (0, 1):
        sys.exit(f"{word} ended with {ended.returncode}: {ended.stdout.decode()[:200]}{text[:1000]}")
    return after.ru_utime + after.ru_stime - before.ru_utime - before.ru_stime, ended.stdout.decode(), ended.returncode


def least(text, word, times):
    return min(run(text, word)[0] for _ in range(times))


def text_of(declared, transactions):
    return "\n".join([declared, "---", *[json.dumps({"ops": it}, separators=(",", ":")) for it in transactions]]) + "\n"


class Pattern:
    """Node variables and edges between them; the edges of a tree, or of a ring with trees that hang on it."""

    def __init__(self, draw, edges, ring, typed):
        self.draw, self.typed = draw, typed
        self.ends = [(at, (at + 1) % ring) for at in range(ring)]
        self.nodes = max(ring, 1)
        for _ in range(edges):
            self.ends.append((draw.randrange(self.nodes), self.nodes))
            self.nodes += 1
        self.ends = [pair if draw.random() < 0.5 else pair[::-1] for pair in self.ends]

    def place(self, name, labels, types):
        asked = []
        if self.draw.random() < 0.35:
            asked.append(self.draw.choice(labels))
        if self.typed and not asked and self.draw.random() < 0.4:
            asked.append(self.draw.choice(types))
        tests = " {t: %d}" % self.draw.randrange(2) if self.draw.random() < 0.08 else ""
        return (name or "") + (":" + "&".join(asked) if asked else "") + tests

    def text(self, names, edge_names, own, first=None):
        """The pattern with these names of node variables and edges, and a node that stands first; others that stand twice get names of their own."""
        ends = [at for pair in self.ends for at in pair]
        names = {at: names.get(at, own + str(at) if ends.count(at) > 1 else None) for at in range(self.nodes)}
        nodes = [self.place(names[at], LABELS, ("ta", "tb")) for at in range(self.nodes)]
        told, left = set(), set(range(len(self.ends)))

        def shown(at):
            word = "(%s)" % (names[at] if at in told else nodes[at])
            told.add(at)
            return word

        at = first or 0
        paths = [shown(at)]
        while left:
            here = [edge for edge in sorted(left) if at in self.ends[edge]]
            if not here:
                at = min(node for edge in left for node in self.ends[edge] if node in told)
                paths.append(shown(at))
                continue
            left.remove(here[0])
            source, target = self.ends[here[0]]
            asked = self.place(edge_names.get(here[0]), EDGE_LABELS, ("tr", "ts"))
            paths[-1] += "-[%s]->" % asked if at == source else "<-[%s]-" % asked
            at = target if at == source else source
            paths[-1] += shown(at)
        return ", ".join(paths)


def key_of(draw, ring, typed, relaxed):
    """A drawn key, of which a pattern has a ring of so many (0: none)."""
    kind = draw.choice(("x", "one", "two"))
    ring_in_scope = kind == "x" or draw.random() < 0.5
    sides = []
    for is_scope in (True, False):
        around = ring if ring_in_scope == is_scope else 0
        edges = draw.randrange(3) if around else draw.randint(0 if kind != "x" and is_scope else 1, 4)
        sides.append(Pattern(draw, edges, around, typed))
    scope, descriptor = sides
    of_edge = len(scope.ends) == 1 and scope.nodes == 2 and bool(descriptor.ends) and draw.random() < 0.3
    x = 0 if of_edge else draw.randrange(scope.nodes)
    told = scope.text({} if of_edge else {x: "x"}, {x: "x"} if of_edge else {}, "v", None if of_edge else x)
    if kind == "x":
        asked = draw.choice(("MANDATORY x.k", "EXCLUSIVE x.k", "IDENTIFIER x.k", "SINGLETON x.k", "COUNT 0..1 OF x.t"))
        return "FOR %s %s" % (told, asked)
    names, edge_names = {}, {}
    if of_edge:
        edge_names[draw.randrange(len(descriptor.ends))] = "x"
    else:
        names[draw.randrange(descriptor.nodes)] = "x"
    free = [("n", at) for at in range(descriptor.nodes) if at not in names] + [("e", at) for at in range(len(descriptor.ends)) if at not in edge_names]
    draw.shuffle(free)
    values = []
    for name, (what, at) in zip("yz" if kind == "two" else "y", free):
        (names if what == "n" else edge_names)[at] = name
        values.append(name + draw.choice(("", ".k", ".t")))
    if not values:
        values = ["x.k"]
    listed = ", ".join(values)
    if relaxed:
        asked = draw.choice(("COUNT 0..1000000 OF " + listed, "EXCLUSIVE x, " + listed))
    else:
        asked = draw.choice(("MANDATORY ", "SINGLETON ", "EXCLUSIVE ", "IDENTIFIER ", "COUNT 0..2000 OF ")) + listed
    return "FOR %s %s WITHIN %s" % (told, asked, descriptor.text(names, edge_names, "w"))


class Graph:
    """A drawn graph: hubs, leaves of one or several of them, and some edges between leaves."""

    def __init__(self, draw):
        self.draw, self.nodes, self.edges, self.ops = draw, 0, 0, []
        self.hubs = [self.node() for _ in range(draw.choice((1, 1, 2, 3)))]
        self.leaves = []
        self.kept = draw.choice((0.5, 0.9, 1.0))
        for hub in self.hubs:
            self.away, self.most = draw.choice((0.0, 0.5, 1.0)), draw.choice("ab")
            for _ in range(draw.randint(300, 1500) // len(self.hubs)):
                at_hub = self.leaves and draw.random() < 0.2
                leaf = draw.choice(self.leaves) if at_hub else self.node("B" if draw.random() < 0.7 else "A")
                self.leaves.append(leaf)
                self.edge(hub, leaf)
        for _ in range(draw.choice((0, len(self.leaves) // 10, len(self.leaves)))):
            self.add_edge(draw.choice(self.leaves), draw.choice(self.leaves))
        for hub in self.hubs[1:]:
            self.add_edge(self.hubs[0], hub)

    def node(self, label=None):
        self.nodes += 1
        label = label or self.draw.choice(LABELS)
        self.ops.append({"add_node": self.nodes, "labels": [label], "props": {"k": self.nodes, "t": self.draw.randrange(2)}})
        return self.nodes

    def edge(self, hub, leaf):
        self.add_edge(*((hub, leaf) if self.draw.random() < self.away else (leaf, hub)))

    def add_edge(self, source, target):
        self.edges += 1
        label = "r" if self.draw.random() < self.kept else "s"
        self.ops.append({"add_edge": self.edges, "from": source, "to": target, "labels": [label], "props": {"k": self.edges, "t": self.draw.randrange(2)}})

    def taken(self):
        made, self.ops = self.ops, []
        return made


def changes(draw, graph):
    """The name of a kind of change, and some lines of it."""
    kind = draw.choice(("edge more", "edge less", "property at a hub", "property at a leaf", "node less", "label", "many"))
    hub, count = draw.choice(graph.hubs), 8
    leaves = draw.sample(sorted(set(graph.leaves)), 2 * count)
    if kind == "edge more":
        for leaf in leaves[:count]:
            graph.edge(hub, leaf)
        return kind, [[op] for op in graph.taken()]
    if kind == "edge less":
        return kind, [[{"remove_edge": number}] for number in draw.sample(range(1, graph.edges + 1), count)]
    if kind.startswith("property"):
        key = draw.choice(("t", "t", "k", "note"))
        at = [hub] * count if kind.endswith("hub") else leaves[:count]
        return kind, [[{"set_node": number, "key": key, "value": place % 2 if key == "t" else 1_000_000 + place}] for place, number in enumerate(at)]
    if kind == "node less":
        return kind, [[{"detach_node": leaf}] for leaf in leaves[:count]]
    if kind == "label":
        at = [hub] * count if draw.random() < 0.5 else leaves[:count]
        words = ("label_node", "unlabel_node")
        return kind, [[{words[place % 2 if at[0] == at[1] else 0]: number, "label": draw.choice(LABELS)}] for place, number in enumerate(at)]
    many = []
    for _ in range(2):
        for _ in range(draw.choice((50, 200, 500))):
            graph.edge(hub, graph.node() if draw.random() < 0.7 else draw.choice(graph.leaves))
        many.append(graph.taken())
    return kind, many


class Decision:
    """What a case's change, or the line that makes its graph, costs."""

    def __init__(self, number, declared, kind, before, after, count):
        self.number, self.declared, self.kind, self.before, self.after, self.count = number, declared, kind, before, after, count
        self.measure(1)
        if 1 < self.ratio() < 3:
            self.measure(3)

    def measure(self, times):
        self.whole = 1000 * least(self.after, "validate", times)
        try:
            first = least(self.before, "try", times) if self.before else 0.0
            self.one = 1000 * max(0.0, least(self.after, "try", times) - first) / self.count
        except TooLong:
            self.one = 1000.0 * LIMIT / self.count

    def is_above(self):
        return self.one > 3 * self.whole + 1

    def ratio(self):
        return self.one / (3 * self.whole + 1)

    def told(self):
        declared = self.declared.split("FOR", 1)
        mode = "STRICT" if "STRICT" in declared[0] else "typed" if "ta:" in declared[0] else "LOOSE"
        return f"{self.number:4} {self.one:9.2f} ms; validate {self.whole:7.1f} ms; {self.one / self.whole:7.2f} times; {self.kind}, {mode}: FOR{declared[1][:-2]}"


def decisions(number, declared, graph, kind, more):
    """The decisions of a case: the line that makes its graph and, where that is no longer than the limit, its change."""
    before = text_of(declared, [graph])
    made = Decision(number, declared, f"the graph of {len(graph)}", None, before, 1)
    if made.one >= 1000 * LIMIT:
        return [made]
    return [made, Decision(number, declared, kind, before, text_of(declared, [graph] + more), len(more))]


def whole(declared, graph):
    """The seconds of `validate` over a graph that conforms; None where it doesn't."""
    used, told, status = run(text_of(declared, [graph]), "validate")
    return used if status == 0 else None


def drawn(draw, number, ring):
    """The decisions of a case whose graph conforms, and how many were drawn in its place of which `validate` takes too long."""
    passed = 0
    while True:
        graph = Graph(draw)
        made = graph.taken()
        typed = draw.random() < 0.4
        mode = "STRICT" if typed and draw.random() < 0.5 else "LOOSE"
        for attempt in range(5):
            key = key_of(draw, ring, typed, attempt > 2)
            declared = "CREATE GRAPH TYPE g %s {%s};" % (mode, ", ".join((TYPES if typed else []) + [key]))
            try:
                used = whole(declared, made)
                if used is not None and used <= LONGEST:
                    kind, more = changes(draw, graph)
                    return decisions(number, declared, made, kind, more), passed
                passed += used is not None
            except TooLong:
                passed += 1


def several(name, count, rings):
    """Draws and tells so many cases; whether no decision is above."""
    cases, passed = [], 0
    for number in range(1, count + 1):
        draw = random.Random(f"{SEED} {name} {number}")
        found, more = drawn(draw, number, draw.randint(2, 4) if rings else 0)
        cases += found
        passed += more
    cases.sort(key=Decision.ratio, reverse=True)
    above = [case for case in cases if case.is_above()]
    graphs = sum(case.before is None for case in above)
    stopped = sum(case.before is None and case.one >= 1000 * LIMIT for case in cases)
    print(f"{name}: {count} drawn; above 3 times `validate` and 1 ms {len(above) - graphs} changes and {graphs} lines that make the graph "
          f"({stopped} stopped at {LIMIT} s, so that their changes aren't measured); {passed} passed over, of which `validate` takes above {LONGEST} s", flush=True)
    shown = cases[:5] + [case for case in cases[5:] if case.before][:10]
    for case in shown:
        print(case.told(), flush=True)
        if FOLDER:
            os.makedirs(FOLDER, exist_ok=True)
            with open(os.path.join(FOLDER, f"{name.split()[0]}-{case.number}-{'change' if case.before else 'graph'}.txt"), "w") as kept:
                kept.write(case.after)
    return not above


TREES_FINE = several("no cycle", TREES, False)
several("cycles", RINGS, True)
sys.exit(0 if TREES_FINE else 1)
P
