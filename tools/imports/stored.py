"""The graph of a dump, and how a row differs from it."""
from graph_lines import Fault, kind_of, read_dump


class Stored:
    """Nodes with their labels and properties, edges with their ends before them."""

    def __init__(self, path):
        self.nodes, self.edges, self.at_nodes = {}, {}, None
        for place, op in read_dump(path):
            kind = kind_of(op)
            if kind == "add_node" and op[kind] not in self.nodes:
                self.nodes[op[kind]] = (op["labels"], op["props"])
            elif kind == "add_edge" and op[kind] not in self.edges:
                self.edges[op[kind]] = (op["labels"], op["props"], (op["from"], op["to"]))
            elif kind == "set_node" and op[kind] in self.nodes:
                self.nodes[op[kind]][1][op["key"]] = op["value"]
            elif kind == "set_edge" and op[kind] in self.edges:
                self.edges[op[kind]][1][op["key"]] = op["value"]
            else:
                raise Fault(place, f"{kind} in a dump: adds and their properties are wanted, each element once")

    def last(self):
        """The greatest number of a node, and of an edge."""
        return max(self.nodes, default=0), max(self.edges, default=0)

    def edges_at(self, node):
        if self.at_nodes is None:
            self.at_nodes = {}
            for number, (_, _, ends) in self.edges.items():
                for end in set(ends):
                    self.at_nodes.setdefault(end, []).append(number)
        return self.at_nodes.get(node, [])

    def elements(self, kind):
        return self.nodes if kind == "node" else self.edges


def is_same(value, other):
    """Whether two values are one: a number isn't a truth value."""
    return type(value) is type(other) and value == other


def changes(row, kind, stored, managed):
    """The operations that make of a stored element what its row says: properties that have a column, and labels; labels are taken away only where
    they are managed."""
    labels, props = stored[0], stored[1]
    for field, value in zip(row.table.props, row.values):
        if value is None and field.name in props:
            yield {f"unset_{kind}": row.number, "key": field.name}
        elif value is not None and not is_same(value, props.get(field.name)):
            yield {f"set_{kind}": row.number, "key": field.name, "value": value}
    if row.table.at["labels"]:
        for label in row.labels:
            if label not in labels:
                yield {f"label_{kind}": row.number, "label": label}
        for label in labels:
            if label in managed and label not in row.labels:
                yield {f"unlabel_{kind}": row.number, "label": label}
