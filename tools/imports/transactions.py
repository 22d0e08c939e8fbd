"""The lines that bring a graph to what the rows of a run say."""
from graph_lines import LONGEST_LINE, Lines, MOST_OPS, added, written
from imports.id_map import line_of
from imports.stored import changes


class PlacedLines(Lines):
    """Lines that note of each operation its element, and the row that it comes from."""

    def __init__(self, out, noted):
        super().__init__(out)
        self.noted, self.element, self.row = noted, None, None

    def add(self, text):
        super().add(text)
        if self.noted.file and self.row is not None:
            self.noted.write(line_of({"line": self.count + 1, "op": len(self.texts), "element": self.element,
                                      "file": self.row.table.name, "row": self.row.line}))


class Change:
    """One element that is added, changed or removed. A removal has no row."""

    __slots__ = ("kind", "number", "row", "name", "ops")

    def __init__(self, kind, number, row, name, ops):
        self.kind, self.number, self.row, self.name, self.ops = kind, number, row, name, ops

    def put(self, lines):
        lines.element, lines.row = self.kind[0] + str(self.number), self.row
        for op in self.ops:
            if self.name == "added":
                added(op, lines)
            else:
                lines.add(written(op))


class Changes:
    """The changes that rows and removals ask for, counted as they are made. Without a stored graph each row adds its element."""

    def __init__(self, stored, managed):
        self.stored, self.managed = stored, set(managed)
        self.count = {"added": 0, "changed": 0, "removed": 0}

    def of_row(self, row):
        """The change that a row asks for, None where its element is in the store as the row says it."""
        kind = row.table.kind
        stored = self.stored.elements(kind).get(row.number) if self.stored else None
        if stored is None:
            ends = {"from": row.ends[0], "to": row.ends[1]} if kind == "edge" else {}
            op = {f"add_{kind}": row.number, **ends, "labels": list(row.labels), "props": row.props()}
            return self._counted(Change(kind, row.number, row, "added", [op]))
        ops = list(changes(row, kind, stored, self.managed))
        return self._counted(Change(kind, row.number, row, "changed", ops)) if ops else None

    def of_removal(self, kind, number):
        return self._counted(Change(kind, number, None, "removed", [{f"remove_{kind}": number}]))

    def _counted(self, change):
        self.count[change.name] += 1
        return change


def put_together(lines, made, removal, rows):
    """Puts all into as few lines as the limits allow: removals, and then the rows in their order."""
    for kind, numbers in (("edge", removal.edges), ("node", removal.nodes)) if removal else ():
        for number in numbers:
            made.of_removal(kind, number).put(lines)
    for row in rows:
        change = made.of_row(row)
        if change is not None:
            change.put(lines)
    lines.end()


class Parts:
    """Sets of nodes that edges join, each with the changes that belong to it."""

    def __init__(self):
        self.above, self.changes = {}, {}

    def root(self, node):
        above = self.above
        while above.setdefault(node, node) != node:
            above[node] = above[above[node]]
            node = above[node]
        return node

    def join(self, ends):
        first, second = map(self.root, ends)
        self.above[second] = first

    def take(self, node, change):
        if change is not None:
            self.changes.setdefault(self.root(node), []).append(change)


def put_in_parts(lines, made, removal, rows, joining):
    """Puts each part that the rows of the joining tables join as one line, and each other edge as one of its own. What is returned: the place and the
    size of each part that no line can hold."""
    parts, own_edges, labels = Parts(), [], set()
    for row in rows:
        if row.table in joining:
            parts.join(row.ends)
            labels.add(tuple(row.labels))
    removed, own_removals = (removed_parts(made, removal, parts, labels) if removal else ([], []))
    for node, change in removed:
        parts.take(node, change)
    for row in rows:
        if row.table.kind == "node":
            parts.take(row.number, made.of_row(row))
        elif row.table in joining:
            parts.take(row.ends[0], made.of_row(row))
        else:
            own_edges.append(row)
    faults = []
    for changes_together in [[change] for change in own_removals] + list(parts.changes.values()):
        put_part(lines, changes_together, faults)
    for row in own_edges:
        change = made.of_row(row)
        if change is not None:
            put_part(lines, [change], faults)
    return faults


def removed_parts(made, removal, parts, labels):
    """The removals that belong to a part, each with a node of it, and those of other edges. An edge belongs where edges of its labels join."""
    joined, own = [], []
    for number in removal.edges:
        stored_labels, _, ends = removal.stored.edges[number]
        change = made.of_removal("edge", number)
        if tuple(sorted(stored_labels)) in labels:
            parts.join(ends)
            joined.append((ends[0], change))
        else:
            own.append(change)
    return joined + [(number, made.of_removal("node", number)) for number in removal.nodes], own


def put_part(lines, changes_together, faults):
    texts = [written(op) for change in changes_together for op in change.ops]
    size = len(b'{"ops":[]}') + sum(map(len, texts)) + len(texts) - 1
    if len(texts) > MOST_OPS or size > LONGEST_LINE:
        row = next((change.row for change in changes_together if change.row is not None), None)
        faults.append((row.place() if row else "--delete", f"what belongs together from here on has {len(texts)} operations and {size} bytes: "
                       f"a line has at most {MOST_OPS} and {LONGEST_LINE}"))
        return
    for change in changes_together:
        change.put(lines)
    lines.end()
