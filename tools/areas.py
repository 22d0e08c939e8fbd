"""A store's two files, read as docs/BYTES.md says, formats 1 and 2. What the tools of this folder share; not a tool itself."""
import fcntl
import os
import stat
from graph_lines import Fault, NAME, is_day
from progress import progress

MOST_BYTES, LAST_EPOCH = 2**40, 2**24 - 1
# How often a file is read beside a run that appends to it, where a record isn't whole.
AGAIN = 5
WORDS = {b"PGSGRD1": 1, b"PGSGRD2": 2}
# The bytes before a record's payload, by the format: its gate, in format 2 its number, and the payload's length.
RECORD_HEADS = {1: 9, 2: 17}
KINDS = {
    1: "add_node", 2: "add_edge", 3: "remove_node", 4: "detach_node", 5: "remove_edge",
    6: "set_node", 7: "unset_node", 8: "label_node", 9: "unlabel_node",
    10: "set_edge", 11: "unset_edge", 12: "label_edge", 13: "unlabel_edge",
}


class Unfit(Exception):
    """Bytes that are no payload."""


class Reader:
    """The bytes of a payload, from a place on."""

    def __init__(self, payload, begin=0, part=None):
        self.payload, self.at, self.begin, self.part = payload, 0, begin, part

    def take(self, count):
        found = self.payload[self.at:self.at + count]
        if len(found) != count:
            raise Unfit
        self.at += count
        return found

    def number(self, count):
        return int.from_bytes(self.take(count), "big")

    def name(self):
        text = self.take(self.number(1)).decode("ascii", "replace")
        if not NAME.match(text):
            raise Unfit
        return text

    def labels(self):
        count = self.number(2)
        names = [self.name() for _ in range(count)]
        if count > 64 or any(first >= second for first, second in zip(names, names[1:])):
            raise Unfit
        return names

    def value(self):
        kind = self.number(1)
        if kind == 1:
            try:
                return self.take(self.number(2)).decode("utf-8")
            except UnicodeDecodeError:
                raise Unfit from None
        if kind == 2:
            return int.from_bytes(self.take(8), "big", signed=True)
        if kind == 3:
            truth = self.number(1)
            if truth > 1:
                raise Unfit
            return truth == 1
        if kind == 4:
            text = f"{self.number(2):04}-{self.number(1):02}-{self.number(1):02}"
            if not is_day(text):
                raise Unfit
            return {"date": text}
        raise Unfit

    def props(self):
        count, props = self.number(2), {}
        for _ in range(count):
            key = self.name()
            if props and key <= last:
                raise Unfit
            last = key
            props[key] = self.value()
        if count > 256:
            raise Unfit
        return props

    def op(self):
        kind = KINDS.get(self.number(1))
        if kind is None:
            raise Unfit
        op = {kind: self.number(8)}
        if kind == "add_edge":
            op["from"], op["to"] = self.number(8), self.number(8)
        if kind.startswith("add"):
            op["labels"], op["props"] = self.labels(), self.props()
        elif kind.startswith(("set", "unset")):
            op["key"] = self.name()
            if kind.startswith("set"):
                op["value"] = self.value()
        elif kind.startswith(("label", "unlabel")):
            op["label"] = self.name()
        return op

    def ascending(self, row):
        rows = []
        for _ in range(self.number(8)):
            number = self.number(8)
            if rows and number <= rows[-1][0]:
                raise Unfit
            rows.append((number, row()))
            if self.part is not None:
                self.part.place = self.begin + self.at
        return rows

    def end(self):
        if self.at != len(self.payload):
            raise Unfit


def command(payload, begin=0, part=None):
    """What a payload is: ("schema", text), ("snapshot", commits, nodes, edges) or ("txn", operations). Where it begins in its file is said for the progress."""
    reader = Reader(payload, begin, part)
    kind = reader.number(1)
    if kind == 1:
        return ("schema", payload[1:])
    if kind == 2:
        commits = reader.number(8)
        nodes = reader.ascending(lambda: (reader.labels(), reader.props()))
        edges = reader.ascending(lambda: (reader.number(8), reader.number(8), reader.labels(), reader.props()))
        reader.end()
        known = {number for number, _ in nodes}
        if not all(row[0] in known and row[1] in known for _, row in edges):
            raise Unfit
        return ("snapshot", commits, nodes, edges)
    if kind == 3:
        ops = [reader.op() for _ in range(reader.number(4))]
        reader.end()
        return ("txn", ops)
    raise Unfit


class Area:
    """One file: `no store`, `another program's file`, or a store with its format, epoch, records, and the place of its end."""

    def __init__(self, path, image):
        self.path, self.size = path, len(image)
        self.is_store = self.is_foreign = False
        self.damaged, self.commands, self.end = None, [], 16
        if len(image) < 17 or image[0] != 1:
            return
        self.format = WORDS.get(image[1:8])
        self.epoch = int.from_bytes(image[8:16], "big")
        if self.format is None or not 1 <= self.epoch <= LAST_EPOCH:
            self.is_foreign = True
            return
        self.is_store = True
        self.read_records(image)

    def read_records(self, image):
        head = RECORD_HEADS[self.format]
        part = progress.reading(self.path, size=len(image))
        while image[self.end] == 1:
            part.place = self.end
            number = len(self.commands) + 1
            start = self.end + head
            size = int.from_bytes(image[start - 8:start], "big")
            if start + size >= len(image) or (self.format == 2 and int.from_bytes(image[self.end + 1:self.end + 9], "big") != number):
                self.damaged = number
                return
            try:
                found = command(image[start:start + size], start, part)
            except Unfit:
                found = ("nothing",)
            if not self.is_fit(found, number):
                self.damaged = number
                return
            self.commands.append(found)
            self.end = start + size
        if not self.commands:
            self.damaged = 1

    def is_fit(self, found, number):
        if number == 1:
            return found[0] == "schema"
        if found[0] == "snapshot":
            return number == 2 and found[1] <= (self.epoch - 1) * 2**40
        return found[0] == "txn" or (found[0] == "schema" and self.format == 2)

    def snapshot(self):
        """The snapshot of the second record, where there is one."""
        if len(self.commands) > 1 and self.commands[1][0] == "snapshot":
            return self.commands[1]
        return None

    def before(self):
        """How many commits lie before the first transaction that stands in the area."""
        snapshot = self.snapshot()
        return snapshot[1] if snapshot else 0

    def txns(self):
        """The transactions that stand in the area, each with its commit number."""
        number = self.before()
        for found in self.commands:
            if found[0] == "txn":
                number += 1
                yield number, found[1]

    def commits(self):
        return self.before() + sum(found[0] == "txn" for found in self.commands)


def opened(path):
    """A store's file; one that isn't regular is refused, and never waited for."""
    try:
        descriptor = os.open(path, os.O_RDONLY | os.O_NONBLOCK)
    except FileNotFoundError:
        raise Fault(path, "no such file") from None
    if not stat.S_ISREG(os.fstat(descriptor).st_mode):
        raise Fault(path, "is not a regular file")
    return open(path, "rb", opener=lambda *_: descriptor)


def is_shared(file):
    """Takes the shared lock of a file, and says whether it could."""
    try:
        fcntl.flock(file, fcntl.LOCK_SH | fcntl.LOCK_NB)
    except BlockingIOError:
        return False
    return True


def opened_both(name):
    """Both files of a store, and whether another run appends to it. They are under their shared locks; beside such a run, which has NAME.a for
    itself, under that of NAME.b alone, which keeps off who writes over a file."""
    first, second = opened(f"{name}.a"), opened(f"{name}.b")
    is_beside = not is_shared(first)
    if not is_shared(second):
        raise Fault(second.name, "locked by another run")
    return (first, second), is_beside


class Store:
    """Both files of a store, under their locks for as long as this stands."""

    def __init__(self, name):
        self.name = name
        self.files, is_beside = opened_both(name)
        self.areas = [self.read(file, AGAIN if is_beside else 1) for file in self.files]
        self.chosen = self.choose()

    @staticmethod
    def read(file, times):
        """What stands in a file. A record that was appended while it was read may not be whole there, so it is read again, a few times."""
        for _ in range(times):
            if os.fstat(file.fileno()).st_size > MOST_BYTES:
                raise Fault(file.name, "longer than 2^40 bytes")
            file.seek(0)
            area = Area(file.name, file.read())
            if area.damaged is None:
                break
        return area

    def choose(self):
        stores = [area for area in self.areas if area.is_store]
        if not stores:
            foreign = any(area.is_foreign for area in self.areas)
            raise Fault(self.name, "another program's file" if foreign else "no store")
        chosen = max(stores, key=lambda area: area.epoch)
        if chosen.damaged is not None:
            raise Fault(chosen.path, f"record {chosen.damaged} is damaged")
        return chosen


def snapshot_size(nodes, edges):
    """How many bytes the payload of a snapshot of these rows has."""
    def name(text):
        return 1 + len(text)

    def value(found):
        if isinstance(found, bool):
            return 2
        if isinstance(found, str):
            return 3 + len(found.encode("utf-8"))
        return 9 if isinstance(found, int) else 5

    def row(labels, props):
        return 4 + sum(map(name, labels)) + sum(name(key) + value(found) for key, found in props.items())

    size = 1 + 8 + 8 + 8
    size += sum(8 + row(labels, props) for labels, props in nodes)
    return size + sum(24 + row(labels, props) for labels, props in edges)


def head_of(file):
    """The format and the epoch of a file whose head is a store's, None of any other."""
    head = os.pread(file.fileno(), 17, 0)
    form, epoch = WORDS.get(head[1:8]), int.from_bytes(head[8:16], "big")
    return (form, epoch) if len(head) == 17 and head[0] == 1 and form and 1 <= epoch <= LAST_EPOCH else None


def last_schema(file, form):
    """The text of the last schema among the records of a store's file; all others are passed over unread."""
    head, size, at, number, text = RECORD_HEADS[form], os.fstat(file.fileno()).st_size, 16, 0, None
    while True:
        found = os.pread(file.fileno(), head + 1, at)
        if found[:1] != b"\1":
            break
        number += 1
        length = int.from_bytes(found[head - 8:head], "big")
        if at + head + length >= size:
            # It may have grown meanwhile.
            size = os.fstat(file.fileno()).st_size
        if at + head + length >= size or (form == 2 and int.from_bytes(found[1:9], "big") != number):
            raise Fault(file.name, f"record {number} is damaged")
        if length and found[head] == 1:
            text = os.pread(file.fileno(), length - 1, at + head + 1)
        at += head + length
    if text is None:
        raise Fault(file.name, "record 1 is damaged")
    return text
