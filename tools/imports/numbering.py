"""Gives the rows of a run their numbers, and finds the rows that can't have one."""
import json
from graph_lines import MOST_ID, NAME
from imports.cells import WHOLE
from imports.id_map import identity


def are_plain(tables):
    """Whether each id of nodes is a whole number below 2^64, and no space is named."""
    return all(not table.spaces["id"] and all(row.id is None or WHOLE.match(row.id) and int(row.id) <= MOST_ID for row in table.rows)
               for table in tables)


def mark_twice(keyed, what):
    """Marks rows that have one key together, each with the place of the other. `what` says of a row what its key is."""
    first, marked = {}, set()
    for key, row in keyed:
        other = first.setdefault(key, row)
        if other is row:
            continue
        row.wrong(f"{what(row)} stood before, at {other.place()}")
        if key not in marked:
            marked.add(key)
            other.wrong(f"{what(row)} stands again, at {row.place()}")


class Numbering:
    """The numbers of a run's rows, by a map. `stored` is the graph of a dump, or None; `fields` are those of an edge's identity, or None."""

    def __init__(self, numbers, stored, fields, takes_new_edges, tells_what_follows):
        self.numbers, self.stored, self.fields = numbers, stored, fields
        self.takes_new_edges, self.tells_what_follows = takes_new_edges, tells_what_follows
        self.bad_ids, self.added = {}, set()

    def nodes(self, tables):
        rows = [row for table in tables for row in table.rows if row.id is not None]
        mark_twice((((row.table.spaces["id"], row.id), row) for row in rows), lambda row: f"the id {json.dumps(row.id)}")
        for row in rows:
            key = (row.table.spaces["id"], row.id)
            if not row.causes:
                try:
                    row.number = self.numbers.node(*key)
                    self.added.add(row.number)
                except ValueError as error:
                    row.wrong(str(error))
            if row.causes:
                self.bad_ids.setdefault(key, row)

    def edges(self, tables):
        rows = [row for table in tables for row in table.rows]
        for row in rows:
            if not row.causes:
                ends = self._end(row, "from", row.source), self._end(row, "to", row.target)
                row.ends = ends if None not in ends else None
        mark_twice(((row.id, row) for row in rows if row.id is not None), lambda row: f"the edge's id {json.dumps(row.id)}")
        for row in rows:
            if row.id is not None and not row.causes:
                self._number(row, self.numbers.edge, row.id)
        self._others([row for row in rows if row.id is None and row.ends])

    def _end(self, row, role, text):
        """The number of the node at an end, None where it isn't known."""
        key = (row.table.spaces[role], text)
        bad = self.bad_ids.get(key)
        try:
            if bad is not None and not self._stands(key):
                if self.tells_what_follows:
                    row.wrong(f"the row of its end {json.dumps(text)} is bad, at {bad.place()}", role)
                return None
            number = self.numbers.end(*key)
        except ValueError as error:
            row.wrong(str(error))
            return None
        if self.stored is not None and number not in self.added and number not in self.stored.nodes:
            row.wrong(f"the node {json.dumps(text)} stands neither in the store nor in these files", role)
            return None
        return number

    def _stands(self, key):
        return self.stored is not None and self.numbers.known(*key) in self.stored.nodes

    def _number(self, row, give, *what):
        try:
            row.number = give(*what)
        except ValueError as error:
            row.wrong(str(error))

    def _others(self, rows):
        """Numbers the edges that have no id."""
        if self.fields is None and not self.takes_new_edges:
            for row in rows:
                if row.table.at["id"]:
                    row.wrong("an edge without an id: --edge-id FIELDS or --new-edges is wanted")
            for table in dict.fromkeys(row.table for row in rows):
                if not table.at["id"]:
                    table.faults.append((f"{table.name}:1", "edges without an id: --edge-id FIELDS or --new-edges is wanted"))
            return
        if self.fields is None:
            for row in rows:
                if not row.causes:
                    self._number(row, self.numbers.new_edge)
            return
        names = ", ".join(self.fields)
        found = [(self._identity(row, names), row) for row in rows]
        mark_twice(((key, row) for key, row in found if key is not None), lambda _: f"an edge of these labels and {names}")
        for key, row in found:
            if not row.causes:
                self._number(row, self.numbers.identified, key)

    def _identity(self, row, names):
        """What an edge is known by: its labels, and its values of the fields; a column that its file lacks is absent there."""
        values = []
        for field in self.fields:
            at = row.table.prop_names.get(field)
            values.append(row.ends[field == "to"] if field in ("from", "to") else None if at is None else row.values[at])
        if all(value is None for value in values):
            row.wrong(f"an edge without an id, and without a value of {names}")
            return None
        return identity(row.labels, values)


def fields_of(text):
    """The names that --edge-id gives; ValueError where one is none."""
    fields = tuple(field.strip() for field in text.split(","))
    for field in fields:
        if not NAME.match(field) or fields.count(field) > 1:
            raise ValueError(f"{json.dumps(field)} is no name of a property, from or to, or stands twice")
    return fields
