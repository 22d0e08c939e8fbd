"""CSV files with a header, each read once; what is wrong is kept with the row that it is in."""
import csv
import io
import json
import sys
from graph_lines import Fault, MOST_LABELS, MOST_PROPS, NAME
from imports.cells import Field
from progress import progress

ONCE = {"id": "of the id", "from": "of from", "to": "of to"}


class Row:
    """A row: its texts of id and ends, its labels and its values in the order of its table's properties; and what is wrong with it."""

    __slots__ = ("table", "line", "id", "source", "target", "labels", "values", "number", "ends", "causes", "text")

    def __init__(self, table, line):
        self.table, self.line = table, line
        self.id = self.source = self.target = self.number = self.ends = self.text = None
        self.labels, self.values, self.causes = (), (), ()

    def place(self):
        return f"{self.table.name}:{self.line}"

    def wrong(self, cause, column=None):
        self.causes += ((column, cause),)

    def faults(self):
        """Each cause with its place."""
        return [(self.place() if column is None else f"{self.place()}, {column}", cause) for column, cause in self.causes]

    def props(self):
        """The properties that are there, by name."""
        return {field.name: value for field, value in zip(self.table.props, self.values) if value is not None}


class Taped:
    """The lines of a file, and those that the row at hand was read from."""

    def __init__(self, lines):
        self.lines, self.taken = lines, []

    def __iter__(self):
        return self

    def __next__(self):
        line = next(self.lines)
        self.taken.append(line)
        return line


class Table:
    """A file of nodes or of edges: its header, and its rows."""

    def __init__(self, path, kind, reading):
        self.path, self.kind, self.name = path, kind, "standard input" if path == "-" else path
        self.keeps_text = reading.keeps_text
        self.encoding = "UTF-8" if reading.encoding == "utf-8-sig" else reading.encoding
        self.fields, self.rows, self.faults, self.label_sets = [], [], [], {}
        self.spaces = {"id": "", "from": "", "to": ""}
        self.props, self.prop_at, self.prop_names, self.at = [], [], {}, {"id": [], "from": [], "to": [], "labels": []}
        with self._opened(reading) as file:
            progress.reading(self.name, file.fileno())
            self._read(Taped(file), reading)

    def _opened(self, reading):
        # A byte that isn't of the encoding becomes a lone surrogate, so that it is the fault of its row alone.
        how = {"newline": "", "encoding": reading.encoding, "errors": "surrogateescape"}
        return io.TextIOWrapper(sys.stdin.buffer, **how) if self.path == "-" else open(self.path, **how)

    def _read(self, tape, reading):
        reader = csv.reader(tape, strict=True, delimiter=reading.delimiter)
        try:
            header = next(reader, None)
            if header is None:
                raise Fault(self.name, "no header")
            self._take_header(header, reading)
            tape.taken.clear()
            for cells in reader:
                if cells and not self.faults:
                    self._take(cells, reader.line_num - len(tape.taken) + 1, tape)
                tape.taken.clear()
        except csv.Error as error:
            self.faults.append((f"{self.name}:{max(1, reader.line_num - len(tape.taken) + 1)}", f"no CSV ({error})"))
        except UnicodeError:
            # Of an encoding whose signs have several bytes: the line isn't known.
            self.faults.append((self.name, f"isn't {self.encoding}"))
        except Fault as fault:
            self.faults.append((fault.place, fault.text))

    def _take_header(self, header, reading):
        place = f"{self.name}:1"
        if not is_text(header):
            raise Fault(place, f"isn't {self.encoding}")
        for text in header:
            try:
                self.fields.append(Field(text, reading))
            except ValueError as error:
                self.faults.append((place, str(error)))
        names = [field.name for field in self.fields if field.name]
        for name in sorted({name for name in names if names.count(name) > 1}):
            self.faults.append((place, f"the field {json.dumps(name)} stands twice"))
        self._take_roles(place)
        self.props = [field for field in self.fields if field.kind]
        self.at = {role: [at for at, field in enumerate(self.fields) if field.role == role] for role in ("id", "from", "to", "labels")}
        self.once_at = [self.at[role][0] if self.at[role] else None for role in ("id", "from", "to")]
        self.prop_at = [self.fields.index(field) for field in self.props]
        self.prop_names = {field.name: at for at, field in enumerate(self.props)}

    def _take_roles(self, place):
        found = [field for field in self.fields if field.role in ONCE]
        for role, what in ONCE.items():
            those = [field for field in found if field.role == role]
            if len(those) > 1:
                self.faults.append((place, f"the field {json.dumps(those[1].text)} is a second one {what}"))
            if not those and not self.faults and role in (("id",) if self.kind == "node" else ("from", "to")):
                self.faults.append((place, f"no field {what}"))
            if those and self.kind == "node" and role != "id":
                self.faults.append((place, f"the field {json.dumps(those[0].text)} is one of edges: --skip leaves it out"))
            self.spaces.update({role: field.space for field in those})

    def _take(self, cells, line, tape):
        row = Row(self, line)
        self.rows.append(row)
        if not is_text(cells):
            row.wrong(f"isn't {self.encoding}")
        elif len(cells) != len(self.fields):
            row.wrong(f"{len(cells)} cells under {len(self.fields)} fields")
        else:
            self._take_cells(row, cells)
        if self.keeps_text:
            row.text = "".join(tape.taken)

    def _take_cells(self, row, cells):
        row.id, row.source, row.target = ((cells[at] or None) if at is not None else None for at in self.once_at)
        if self.kind == "node" and row.id is None:
            row.wrong("a node without an id")
        for role, text in (("from", row.source), ("to", row.target)) if self.kind == "edge" else ():
            if text is None:
                row.wrong(f"an edge without {role}")
        row.labels = self._labels(row, tuple(cells[at] for at in self.at["labels"]))
        values = []
        for field, at in zip(self.props, self.prop_at):
            try:
                values.append(None if cells[at] == "" else field.value(cells[at]))
            except ValueError as error:
                row.wrong(str(error), field.name)
        row.values = tuple(values)
        if len(values) > MOST_PROPS and sum(value is not None for value in values) > MOST_PROPS:
            row.wrong(f"{sum(value is not None for value in values)} properties, at most {MOST_PROPS}")

    def _labels(self, row, texts):
        found = self.label_sets.get(texts)
        if found is None:
            found = tuple(sorted({label.strip() for text in texts for label in text.split(";") if label.strip()}))
            wrong = next((label for label in found if not NAME.match(label)), None)
            if wrong is not None:
                row.wrong(f"the label {json.dumps(wrong)} is no name of ASCII letters, digits and _")
            elif len(found) > MOST_LABELS:
                row.wrong(f"{len(found)} labels, at most {MOST_LABELS}")
            else:
                self.label_sets[texts] = found
        return found


def is_text(cells):
    """Whether the cells have no byte that isn't of the encoding."""
    try:
        "".join(cells).encode("utf-8")
        return True
    except UnicodeEncodeError:
        return False
