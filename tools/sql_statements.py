"""A graph as statements for PostgreSQL. What feed-to-sql and dump-to-sql share; not a tool itself.

Tables: graph_node (id, labels, props), graph_edge (id, source, target, labels, props), graph_commit (the number of the last commit). Ids are
numeric(20), since a bigint is too small. Values keep the form of the lines, a day as {"date": ..}."""
import json
from graph_lines import Fault, kind_of

TABLES = """\\set ON_ERROR_STOP on
SET client_min_messages = warning;
SET client_encoding = 'UTF8';
SET standard_conforming_strings = on;
CREATE TABLE IF NOT EXISTS graph_node (id numeric(20) PRIMARY KEY, labels text[] NOT NULL, props jsonb NOT NULL);
CREATE TABLE IF NOT EXISTS graph_edge (id numeric(20) PRIMARY KEY, source numeric(20) NOT NULL, target numeric(20) NOT NULL,
  labels text[] NOT NULL, props jsonb NOT NULL);
CREATE INDEX IF NOT EXISTS graph_edge_source ON graph_edge (source);
CREATE INDEX IF NOT EXISTS graph_edge_target ON graph_edge (target);
CREATE TABLE IF NOT EXISTS graph_commit (last numeric(20) NOT NULL);
INSERT INTO graph_commit SELECT 0 WHERE NOT EXISTS (SELECT FROM graph_commit);
"""


def literal(text):
    return "'" + text.replace("'", "''") + "'"


def json_text(value):
    return json.dumps(value, ensure_ascii=False, sort_keys=True, separators=(",", ":"))


def json_literal(value):
    return literal(json_text(value)) + "::jsonb"


def labels_literal(labels):
    return "ARRAY[" + ",".join(map(literal, labels)) + "]::text[]"


def no_zero(op, place):
    """A text with U+0000 is legal in a graph and not in PostgreSQL."""
    values = list(op.get("props", {}).items())
    if "value" in op:
        values.append((op["key"], op["value"]))
    for key, value in values:
        if isinstance(value, str) and "\0" in value:
            kind = kind_of(op)
            name = ("n" if kind.endswith("node") else "e") + str(op[kind])
            raise Fault(place, f"{name}, {key}: a text with U+0000, which PostgreSQL doesn't take")


def statement(op):
    """One operation."""
    kind = kind_of(op)
    number = op[kind]
    if kind == "add_node":
        return f"INSERT INTO graph_node VALUES ({number}, {labels_literal(op['labels'])}, {json_literal(op['props'])});"
    if kind == "add_edge":
        return (f"INSERT INTO graph_edge VALUES ({number}, {op['from']}, {op['to']}, {labels_literal(op['labels'])}, "
                f"{json_literal(op['props'])});")
    if kind == "detach_node":
        return f"DELETE FROM graph_edge WHERE source = {number} OR target = {number}; DELETE FROM graph_node WHERE id = {number};"
    table = "graph_node" if kind.endswith("node") else "graph_edge"
    if kind.startswith("remove"):
        return f"DELETE FROM {table} WHERE id = {number};"
    if kind.startswith("set"):
        change = f"props = props || {json_literal({op['key']: op['value']})}"
    elif kind.startswith("unset"):
        change = f"props = props - {literal(op['key'])}"
    elif kind.startswith("label"):
        label = literal(op["label"])
        change = f'labels = ARRAY(SELECT DISTINCT label COLLATE "C" FROM unnest(array_append(labels, {label})) AS label ORDER BY 1)'
    else:
        change = f"labels = array_remove(labels, {literal(op['label'])})"
    return f"UPDATE {table} SET {change} WHERE id = {number};"


def copy_row(op):
    """The line of COPY of an element that is added. In a JSON text no line feed and no tab stands by itself, so the backslash alone is escaped."""
    ends = f"{op['from']}\t{op['to']}\t" if "add_edge" in op else ""
    props = json_text(op["props"]).replace("\\", "\\\\")
    labels = ",".join(f'"{label}"' for label in op["labels"])
    return f"{op[kind_of(op)]}\t{ends}{{{labels}}}\t{props}\n"


def copied(table, rows):
    """The statement that fills a table with rows."""
    yield f"COPY {table} FROM STDIN;\n"
    yield from rows
    yield "\\.\n"


def quoted(name):
    return '"' + name.replace('"', '""') + '"'


# Of a kind of value: what a JSON value of it is to jsonb, and the column that it makes. A cast of a text to a day is not one that an index may have.
COLUMNS = {
    "STRING": ("string", "props ->> {key}"),
    "INT": ("number", "(props ->> {key})::bigint"),
    "BOOL": ("boolean", "(props ->> {key})::boolean"),
    "DATE": ("object", "make_date(substr({day}, 1, 4)::int, substr({day}, 6, 2)::int, substr({day}, 9)::int)"),
}


def column(prop, kind):
    """The value of a property, null where it isn't of this kind; as jsonb where no kind is told."""
    key = literal(prop)
    if kind is None:
        return f"props -> {key}"
    what, value = COLUMNS[kind]
    day = f"props -> {key} ->> 'date'"
    return f"CASE jsonb_typeof(props -> {key}) WHEN '{what}' THEN {value.format(key=key, day=day)} END"


def view(schema, one):
    """The statement that makes a view of a label."""
    own = "id, labels" if one.kind == "node" else "id, source, target, labels"
    columns = "".join(f",\n    {column(prop, kind)} AS {quoted(name)}" for name, prop, kind in one.columns)
    return (f"CREATE VIEW {quoted(schema)}.{quoted(one.name)} AS\n  SELECT {own}{columns}\n"
            f"  FROM graph_{one.kind} WHERE labels @> ARRAY[{literal(one.label)}]::text[];\n")


def index(number, kind, prop, value):
    """The statement that makes an index of a property. A text may be too long for a tree, so texts are told apart by a hash."""
    way = "btree" if value in ("INT", "BOOL", "DATE") else "hash"
    return f"CREATE INDEX graph_key_{number} ON graph_{kind} USING {way} (({column(prop, value)}));\n"
