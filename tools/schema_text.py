"""A schema's text, read as docs/GRAMMAR.md says, as far as tables need it: which labels and properties its types give, and which properties its keys look
at. The text is one that pgguard took: what only a meaning forbids isn't looked for. What the tools of this folder share; not a tool itself."""
import re
import sys
from graph_lines import Fault, numbered

# Types may be built on each other in a long row.
sys.setrecursionlimit(50_000)

ITEM = re.compile(r"(?P<space>[ \t\n\r]+|//[^\n]*)|(?P<word>[A-Za-z_][A-Za-z0-9_]*)|`(?P<quoted>[A-Za-z_][A-Za-z0-9_]*)`|(?P<number>-?[0-9]+)"
                  r"|(?P<string>'(?:[^'\n]|'')*')|(?P<sign>->|<-|\.\.|[][(){}:,;.&|?-])")
KEYWORDS = set("ABSTRACT BOOL COUNT CREATE DATE EDGE EXCLUSIVE FALSE FOR GRAPH IDENTIFIER IMPORTS INT LOOSE MANDATORY NODE OF OPEN OPTIONAL SINGLETON "
               "STRICT STRING TRUE TYPE WITHIN".split())
KINDS = ("STRING", "INT", "BOOL", "DATE")
QUALIFIERS = ("IDENTIFIER", "EXCLUSIVE", "MANDATORY", "SINGLETON", "COUNT")


def tokens(text, name):
    """The items of a text that aren't spaces, as (kind, text, line); a keyword's kind is itself."""
    found, at, line = [], 0, 1
    while at < len(text):
        item = ITEM.match(text, at)
        if item is None:
            raise Fault(f"{name}:{line}", f"no schema: {text[at]!r} begins nothing")
        kind, here = item.lastgroup, item[item.lastgroup]
        if kind == "word":
            found.append((here if here in KEYWORDS else "name", here, line))
        elif kind != "space":
            found.append(("name" if kind == "quoted" else here if kind == "sign" else kind, here, line))
        line += item[0].count("\n")
        at = item.end()
    return found


class Parser:
    """Reads the tokens of a script. Bodies become trees of (form, parts): name, props, join (of what is there together), union."""

    def __init__(self, text, name):
        self.name, self.found, self.at = name, tokens(text, name), 0
        self.types = {"node": {}, "edge": {}}
        self.ends, self.graphs = [], {}
        while self.at < len(self.found):
            self.statement()

    def sees(self, *kinds):
        return self.at < len(self.found) and self.found[self.at][0] in kinds

    def take(self, *kinds):
        if not self.sees(*kinds):
            last = self.found[min(self.at, len(self.found) - 1)]
            found = f"{last[1]!r}" if self.at < len(self.found) else "the end"
            raise Fault(f"{self.name}:{last[2]}", f"no schema: {found} where {' or '.join(kinds)} is wanted")
        self.at += 1
        return self.found[self.at - 1][1]

    def may(self, kind):
        """Takes a token where it is there. Whether it was."""
        taken = self.sees(kind)
        self.at += taken
        return taken

    def statement(self):
        self.take("CREATE")
        self.may("ABSTRACT")
        kind = self.take("NODE", "EDGE", "GRAPH")
        self.take("TYPE")
        if kind == "GRAPH":
            self.graph()
        else:
            self.may("ABSTRACT")
            self.type_of(kind.lower())
        self.take(";")

    def type_of(self, kind):
        """Takes a type of this kind. Its name."""
        return self.node_type() if kind == "node" else self.edge_type()

    def node_type(self):
        self.take("(")
        name = self.take("name")
        self.types["node"][name] = self.body()
        self.take(")")
        return name

    def edge_type(self):
        self.end()
        arrow = self.take("-", "<-")
        self.take("[")
        name = self.take("name")
        self.types["edge"][name] = self.body()
        self.take("]")
        self.take("->" if arrow == "-" else "-")
        self.end()
        return name

    def end(self):
        self.take("(")
        self.ends.append(self.body())
        self.take(")")

    def body(self):
        parts = [self.labels()] if self.may(":") else []
        self.may("OPEN")
        if self.may("{"):
            parts.append(("props", self.props()))
        return ("join", parts)

    def labels(self):
        units = [self.unions()]
        while self.may("|"):
            units.append(self.unions())
        return ("union", units)

    def unions(self):
        units = [self.unit()]
        while self.may("&"):
            units.append(self.unit())
        return ("join", units)

    def unit(self):
        if self.may("("):
            found = self.labels()
            self.take(")")
        else:
            found = ("name", self.take("name"))
        self.may("?")
        return found

    def props(self):
        found = {}
        while not self.may("}"):
            if not self.may("OPEN"):
                self.may("OPTIONAL")
                name = self.take("name")
                found[name] = self.take(*KINDS)
            if not self.sees("}"):
                self.take(",")
        return found

    def graph(self):
        name = self.take("name")
        self.take("STRICT", "LOOSE")
        imports, members, keys = [], [], []
        if self.may("IMPORTS"):
            imports.append(self.take("name"))
            while self.may(","):
                imports.append(self.take("name"))
        self.take("{")
        while not self.may("}"):
            if self.may("FOR"):
                keys.append(self.key())
            else:
                members.append(self.member())
            if not self.sees("}"):
                self.take(",")
        self.graphs[name] = (imports, members, keys)
        self.guard = name

    def member(self):
        if self.sees("name"):
            return self.take("name")
        self.may("ABSTRACT")
        return self.type_of("edge" if self.is_edge() else "node")

    def is_edge(self):
        """Whether the parenthesis that is open here closes before an arrow."""
        depth = 0
        for at in range(self.at, len(self.found)):
            kind = self.found[at][0]
            depth += (kind == "(") - (kind == ")")
            if depth == 0:
                return at + 1 < len(self.found) and self.found[at + 1][0] in ("-", "<-")
        return False

    def key(self):
        """The properties of one element that a key tests or takes, as (kind, property)."""
        variables, looked_at = {}, set()
        self.paths(variables, looked_at)
        while self.sees(*QUALIFIERS):
            if self.take(*QUALIFIERS) == "COUNT":
                for kind in ("number", "..", "number", "OF"):
                    self.take(kind)
            self.may(",")
        taken = [self.expression()]
        while self.goes_on("name"):
            taken.append(self.expression())
        if self.may("WITHIN"):
            self.paths(variables, looked_at)
        looked_at.update((variables[name], prop) for name, prop in taken if prop and name in variables)
        return looked_at

    def goes_on(self, kind):
        """Takes a comma where something of a kind stands behind it, and not the next key. Whether it does."""
        on = self.sees(",") and self.at + 1 < len(self.found) and self.found[self.at + 1][0] == kind
        self.at += on
        return on

    def expression(self):
        name = self.take("name")
        return name, self.take("name") if self.may(".") else None

    def paths(self, variables, looked_at):
        self.path(variables, looked_at)
        while self.goes_on("("):
            self.path(variables, looked_at)

    def path(self, variables, looked_at):
        self.place("node", "(", ")", variables, looked_at)
        while self.sees("-", "<-"):
            arrow = self.take("-", "<-")
            self.place("edge", "[", "]", variables, looked_at)
            self.take("->" if arrow == "-" else "-")
            self.place("node", "(", ")", variables, looked_at)

    def place(self, kind, opening, closing, variables, looked_at):
        self.take(opening)
        if self.sees("name"):
            variables.setdefault(self.take("name"), kind)
        if self.may(":"):
            self.take("name")
            while self.may("&"):
                self.take("name")
        if self.may("{"):
            while not self.may("}"):
                looked_at.add((kind, self.take("name")))
                self.take(":")
                if self.take("string", "number", "TRUE", "FALSE", "DATE") == "DATE":
                    self.take("string")
                self.may(",")
        self.take(closing)


class Carried:
    """What fits a body may carry: labels, properties with their kinds, and which of both may be there together."""

    def __init__(self):
        self.labels, self.props, self.pairs = set(), set(), set()

    def add(self, other, *, together):
        if together:
            self.pairs |= {(label, prop) for label in self.labels for prop in other.props}
            self.pairs |= {(label, prop) for label in other.labels for prop in self.props}
        self.labels |= other.labels
        self.props |= other.props
        self.pairs |= other.pairs


class Schema:
    """Of the last graph type and its imports: for each kind of element its labels, each with the kinds of its properties; and what keys look at."""

    def __init__(self, lines, name):
        self.name = name
        try:
            self.script = Parser(b"\n".join(lines).decode("utf-8"), name)
        except UnicodeDecodeError:
            raise Fault(name, "the schema isn't UTF-8") from None
        if not self.script.graphs:
            raise Fault(self.name, "no graph type")
        self.known, self.open = {}, set()
        members, self.looked_at = self.guarded(self.script.guard, set())
        self.labels = {"node": {}, "edge": {}}
        for kind in self.labels:
            for name in members:
                if name in self.script.types[kind]:
                    self.put(kind, self.of_type(kind, name))
        for end in self.script.ends:
            self.put("node", self.of("node", end))

    def guarded(self, graph, seen):
        """The names of the types of a graph type and its imports, and what their keys look at."""
        if graph not in self.script.graphs or graph in seen:
            return set(), set()
        seen.add(graph)
        imports, members, keys = self.script.graphs[graph]
        names, looked_at = set(members), set().union(*keys)
        for name in imports:
            for found, more in zip((names, looked_at), self.guarded(name, seen)):
                found |= more
        return names, looked_at

    def put(self, kind, carried):
        for label in carried.labels:
            self.labels[kind].setdefault(label, {})
        for label, (prop, value) in carried.pairs:
            self.labels[kind][label].setdefault(prop, set()).add(value)

    def of_type(self, kind, name):
        if (kind, name) in self.open:
            raise Fault(self.name, f"{name} is on a cycle")
        if (kind, name) not in self.known:
            self.open.add((kind, name))
            self.known[kind, name] = self.of(kind, self.script.types[kind][name])
            self.open.remove((kind, name))
        return self.known[kind, name]

    def of(self, kind, body):
        form, parts = body
        found = Carried()
        if form == "props":
            found.props = set(parts.items())
        elif form == "name" and parts in self.script.types[kind]:
            return self.of_type(kind, parts)
        elif form == "name":
            found.labels = {parts}
        else:
            for part in parts:
                found.add(self.of(kind, part), together=form == "join")
        return found


class View:
    """A view of a label: the kind of its elements, the label, the view's name, and of each column its name, its property, and the property's kind, None
    where types differ in it."""

    def __init__(self, kind, label, name, props, same):
        self.kind, self.label, self.name = kind, label, name
        # No property has a point in its name.
        own = ("id", "labels") if kind == "node" else ("id", "source", "target", "labels")
        names = distinct([f"props.{prop}" if same(prop) in own else prop for prop in sorted(props)], same, own)
        self.columns = [(column, prop, next(iter(kinds)) if len(kinds) == 1 else None)
                        for column, (prop, kinds) in zip(names, sorted(props.items()))]


def distinct(names, same, taken=()):
    """The names, with a number behind those that a database takes for an earlier one."""
    seen, found = {same(name) for name in taken}, []
    for name in names:
        here, count = name, 1
        while same(here) in seen:
            count += 1
            here = f"{name[:50]} ({count})"
        seen.add(same(here))
        found.append(here)
    return found


def views_of(schema, same, taken=()):
    """The views of a schema, nodes first. `same` gives of a name what a database tells it by."""
    pairs = [(kind, label) for kind in ("node", "edge") for label in sorted(schema.labels[kind])]
    names = distinct([f"{label} (edge)" if kind == "edge" and label in schema.labels["node"] else label for kind, label in pairs], same, taken)
    return [View(kind, label, name, schema.labels[kind][label], same) for (kind, label), name in zip(pairs, names)]


def schema_of(path):
    """The schema in a file: its whole text, or that before a line `---`."""
    lines = []
    for _, line, _ in numbered(path):
        if line.rstrip(b"\r") == b"---":
            break
        lines.append(line)
    return Schema(lines, "standard input" if path == "-" else path)
