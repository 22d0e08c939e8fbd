"""A graph in memory, as operations make it. What the tools of this folder share; not a tool itself."""
from graph_lines import Fault, kind_of


class Graph:
    """Nodes as labels and properties; edges as source, target, labels and properties; and which edges stand at a node."""

    def __init__(self):
        self.nodes, self.edges, self.at = {}, {}, {}

    def put_edge(self, number, row):
        self.edges[number] = row
        self.at.setdefault(row[0], set()).add(number)
        self.at.setdefault(row[1], set()).add(number)

    def drop_edge(self, number):
        source, target, _, _ = self.edges.pop(number)
        for end in (source, target):
            self.at[end].discard(number)

    def do(self, op):
        kind = kind_of(op)
        number = op[kind]
        if kind == "add_node":
            self.nodes[number] = (set(op["labels"]), dict(op["props"]))
        elif kind == "add_edge":
            self.put_edge(number, (op["from"], op["to"], set(op["labels"]), dict(op["props"])))
        elif kind == "remove_edge":
            self.drop_edge(number)
        elif kind in ("remove_node", "detach_node"):
            for edge in list(self.at.get(number, ())):
                self.drop_edge(edge)
            self.at.pop(number, None)
            del self.nodes[number]
        else:
            labels, props = (self.nodes[number] if kind.endswith("node") else self.edges[number][2:])
            if kind.startswith("set"):
                props[op["key"]] = op["value"]
            elif kind.startswith("unset"):
                props.pop(op["key"], None)
            elif kind.startswith("label"):
                labels.add(op["label"])
            else:
                labels.discard(op["label"])


def elements(ops):
    """The elements of a dump, each as the place and the operation that adds it with all its properties, in the dump's order."""
    found = name = None
    for place, op in ops:
        kind = kind_of(op)
        if found is not None and kind == "set_" + name[4:] and op[kind] == found[1][name]:
            found[1]["props"][op["key"]] = op["value"]
            continue
        if found is not None:
            yield found
        if not kind.startswith("add_"):
            raise Fault(place, f"{kind} in a dump: adds and their properties are wanted")
        found, name = (place, op), kind
    if found is not None:
        yield found
