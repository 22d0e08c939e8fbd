"""The elements that an import once gave, that stand in the store, and that its files have no more."""
import json
from graph_lines import Fault


def name_of(numbers, node):
    """How a message names a node: by its id and its number."""
    text = next((text for (_, text), number in numbers.nodes.items() if number == node), None)
    return f"the node n{node}" if text is None else f"the node {json.dumps(text)} (n{node})"


class Removal:
    """What --delete KIND.. takes away: edges, and nodes without other edges."""

    def __init__(self, numbers, stored, kinds, tables):
        self.numbers, self.stored, self.kinds = numbers, stored, set(kinds)
        for kind in kinds:
            self._know(kind, tables)
        here = {"node": set(), "edge": set()}
        for table in tables:
            here[table.kind].update(row.number for row in table.rows)
        self.edges = [number for number in numbers.edges.values()
                      if number in stored.edges and number not in here["edge"] and self.kinds & set(stored.edges[number][0])]
        self.nodes = [number for (space, _), number in numbers.nodes.items()
                      if number in stored.nodes and number not in here["node"]
                      and (space in self.kinds or self.kinds & set(stored.nodes[number][0]))]

    def _know(self, kind, tables):
        spaces = {space for space, _ in self.numbers.nodes} | {table.spaces["id"] for table in tables}
        labels = {label for elements in (self.stored.nodes, self.stored.edges) for found in elements.values() for label in found[0]}
        if kind not in spaces - {""} and kind not in labels and not any(kind in row.labels for table in tables for row in table.rows):
            raise Fault("--delete", f"no id space and no label is {json.dumps(kind)}")

    def __len__(self):
        return len(self.edges) + len(self.nodes)

    def faults(self, tables):
        """Nodes that can't go: an edge stands at them that stays, or a row puts one there."""
        nodes, edges, found = set(self.nodes), set(self.edges), []
        for node in self.nodes:
            stays = [edge for edge in self.stored.edges_at(node) if edge not in edges]
            if stays:
                found.append(("--delete", f"{name_of(self.numbers, node)} still has edge e{stays[0]}, which isn't taken away"))
        for row in (row for table in tables if table.kind == "edge" for row in table.rows):
            gone = nodes & set(row.ends or ())
            if gone and row.number not in self.stored.edges:
                found.append((row.place(), f"{name_of(self.numbers, min(gone))} is taken away by --delete"))
        return found
