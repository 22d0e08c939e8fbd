"""A graph as tables of a file of SQLite: those that feed-to-sql and dump-to-sql fill in PostgreSQL. What dump-to-sqlite and feed-to-sqlite share; not a
tool itself.

Tables: graph_node (id, labels, props), graph_edge (id, source, target, labels, props), graph_commit (the number of the last commit). SQLite's numbers
end below 2^63, so numbers from there on are texts. Labels are a JSON list, properties a JSON object in the form of the lines, a day as {"date": ..}."""
import json
import os
import sqlite3
from graph_lines import Fault, kind_of
from made_beside import Beside, give_name, sync
from schema_text import views_of

# No column of numbers has a type: SQLite would make a float of a text of twenty digits.
TABLES = (
    "CREATE TABLE IF NOT EXISTS graph_node (id PRIMARY KEY NOT NULL, labels TEXT NOT NULL, props TEXT NOT NULL)",
    "CREATE TABLE IF NOT EXISTS graph_edge (id PRIMARY KEY NOT NULL, source NOT NULL, target NOT NULL, labels TEXT NOT NULL, props TEXT NOT NULL)",
    "CREATE INDEX IF NOT EXISTS graph_edge_source ON graph_edge (source)",
    "CREATE INDEX IF NOT EXISTS graph_edge_target ON graph_edge (target)",
    "CREATE TABLE IF NOT EXISTS graph_commit (last NOT NULL)",
    "INSERT INTO graph_commit SELECT 0 WHERE NOT EXISTS (SELECT * FROM graph_commit)",
)
TAKEN = ("graph_node", "graph_edge", "graph_commit", "graph_edge_source", "graph_edge_target")
OURS = "/* pgguard */"
COLUMNS = {
    "STRING": ("'text'", "json_extract(props, {path})"),
    "INT": ("'integer'", "json_extract(props, {path})"),
    "BOOL": ("'true', 'false'", "json_extract(props, {path})"),
    "DATE": ("'object'", "json_extract(props, {day})"),
}


def number_of(number):
    return number if number < 2**63 else str(number)


def json_text(value):
    return json.dumps(value, ensure_ascii=False, sort_keys=True, separators=(",", ":"))


def row(op):
    """The row of an element that is added."""
    kind = kind_of(op)
    ends = [number_of(op[end]) for end in ("from", "to")] if kind == "add_edge" else []
    return (number_of(op[kind]), *ends, json_text(op["labels"]), json_text(op["props"]))


def column(prop, kind):
    """The value of a property, null where it isn't of this kind; as JSON where no kind is told."""
    path, day = f"""'$."{prop}"'""", f"""'$."{prop}".date'"""
    if kind is None:
        return f"props -> {path}"
    what, value = COLUMNS[kind]
    return f"CASE WHEN json_type(props, {path}) IN ({what}) THEN {value.format(path=path, day=day)} END"


def put_views(base, schema):
    """Makes the views of a schema, in place of those that were made before."""
    for (name,) in base.execute("SELECT name FROM sqlite_master WHERE type = 'view' AND instr(sql, ?)", (OURS,)).fetchall():
        base.execute(f'DROP VIEW "{name}"')
    for one in views_of(schema, str.lower, TAKEN):
        own = "id, labels" if one.kind == "node" else "id, source, target, labels"
        columns = "".join(f', {column(prop, kind)} AS "{name}"' for name, prop, kind in one.columns)
        base.execute(f"""CREATE VIEW "{one.name}" AS {OURS} SELECT {own}{columns} FROM graph_{one.kind} WHERE instr(labels, '"{one.label}"')""")


class Taking:
    """Takes operations into the tables."""

    def __init__(self, base):
        self.base = base

    def last(self):
        return int(self.base.execute("SELECT last FROM graph_commit").fetchone()[0])

    def end(self, commit):
        self.base.execute("UPDATE graph_commit SET last = ?", (number_of(commit),))

    def do(self, op, place):
        try:
            self.change(op, place)
        except sqlite3.Error as error:
            raise Fault(place, str(error)) from None

    def change(self, op, place):
        kind = kind_of(op)
        table, number = "graph_node" if kind.endswith("node") else "graph_edge", number_of(op[kind])
        if kind.startswith("add"):
            values = row(op)
            self.base.execute(f"INSERT INTO {table} VALUES ({', '.join('?' * len(values))})", values)
            return
        if kind == "detach_node":
            self.base.execute("DELETE FROM graph_edge WHERE source = ? OR target = ?", (number, number))
        found = self.base.execute(f"SELECT labels, props FROM {table} WHERE id = ?", (number,)).fetchone()
        if found is None:
            raise Fault(place, f"{kind} of {table[6]}{op[kind]}, which the tables don't have: they are of another store")
        if kind in ("remove_node", "remove_edge", "detach_node"):
            self.base.execute(f"DELETE FROM {table} WHERE id = ?", (number,))
            return
        labels, props = changed(op, kind, *map(json.loads, found))
        self.base.execute(f"UPDATE {table} SET labels = ?, props = ? WHERE id = ?", (json_text(labels), json_text(props), number))


def changed(op, kind, labels, props):
    """Labels and properties after an operation on them."""
    if kind.startswith("set"):
        props[op["key"]] = op["value"]
    elif kind.startswith("unset"):
        props.pop(op["key"], None)
    elif kind.startswith("label"):
        labels = sorted({*labels, op["label"]})
    else:
        labels = [label for label in labels if label != op["label"]]
    return labels, props


def connected(path):
    """A file of SQLite, whose transactions begin and end where it is said."""
    return sqlite3.connect(path, isolation_level=None)


def in_one(path, fill):
    """Has the tables of a file filled in one transaction."""
    base = connected(path)
    try:
        base.execute("BEGIN IMMEDIATE")
        for statement in TABLES:
            base.execute(statement)
        fill(base)
        base.execute("COMMIT")
    except sqlite3.Error as error:
        raise Fault(path, str(error)) from None
    finally:
        base.close()


def filled(path, fill):
    """Has the tables of a file filled in one transaction; a file that isn't there is made beside and named when it is whole."""
    if os.path.lexists(path):
        if not os.path.isfile(path):
            raise Fault(path, "is not a regular file")
        in_one(path, fill)
        return
    folder, name = os.path.split(path)
    with Beside(folder, name) as beside:
        made = os.path.join(beside.path, name)
        in_one(made, fill)
        sync(made)
        give_name(made, path)
