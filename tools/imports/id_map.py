"""The numbers of ids, kept in a file of lines that only grows: a number is never given twice.

The first line is {"map":2}. Each other one is an object: a node's id with its number, an edge's id or identity (its labels and its values of the
fields that the map keeps) with its number, a number whose id was forgotten, the numbers of edges without an identity, the last numbers that are used
elsewhere, the fields, or that ids are no longer their own numbers."""
import json
import os
import stat
from graph_lines import Fault, MOST_ID
from imports.cells import WHOLE
from imports.files import is_at, lock, opened_beside, sync_folder

HEAD = {"map": 2}
encoded = json.JSONEncoder(ensure_ascii=False, separators=(",", ":")).encode


def line_of(entry):
    return encoded(entry).encode("utf-8") + b"\n"


def identity(labels, values):
    """The key of an edge that has no id."""
    return encoded([list(labels), values])


def is_number(value):
    return type(value) is int and 0 <= value <= MOST_ID


class Numbers:
    """What a map says. Ids are plain as long as each is its own number."""

    def __init__(self):
        self.plain, self.fields = True, None
        self.nodes, self.edges = {}, {}
        self.node_numbers, self.edge_numbers = set(), set()
        # First and last of the numbers of edges without an identity: those that are kept, and those of this run.
        self.new_edges, self.fresh_edges = [], []
        # Of edges up to `old_edges` the first form of a map didn't keep how they are known.
        self.last_node = self.last_edge = self.old_edges = 0

    def take(self, entry):
        """Takes a line's object; ValueError, KeyError or TypeError where it is none."""
        if not isinstance(entry, dict):
            raise ValueError
        if "node" in entry:
            self._take_number(entry["node"], self.node_numbers)
            if "id" in entry:
                self._take_key(self.nodes, (entry.get("space", ""), entry["id"]), entry["node"])
            self.last_node = max(self.last_node, entry["node"])
        elif "edge" in entry:
            self._take_number(entry["edge"], self.edge_numbers)
            if "id" in entry:
                self._take_key(self.edges, ("", entry["id"]), entry["edge"])
            elif "labels" in entry:
                if not isinstance(entry["labels"], list) or not isinstance(entry["values"], list):
                    raise ValueError
                self._take_key(self.edges, identity(entry["labels"], entry["values"]), entry["edge"])
            self.last_edge = max(self.last_edge, entry["edge"])
        elif "new_edges" in entry:
            first, last = entry["new_edges"]
            if not is_number(first) or not is_number(last):
                raise ValueError
            extended(self.new_edges, first, last)
            self.last_edge = max(self.last_edge, last)
        else:
            self._take_state(entry)

    def _take_state(self, entry):
        (name, value), = entry.items()
        if name in ("last_node", "last_edge", "old_edges") and is_number(value):
            setattr(self, name, max(getattr(self, name), value))
        elif name == "plain" and value is False:
            self.plain = False
        elif name == "edge_id" and all(isinstance(field, str) for field in value):
            self.fields = tuple(value)
        else:
            raise ValueError

    @staticmethod
    def _take_number(number, numbers):
        if not is_number(number) or number in numbers:
            raise ValueError
        numbers.add(number)

    @staticmethod
    def _take_key(known, key, number):
        if key in known or isinstance(key, tuple) and not all(isinstance(part, str) for part in key):
            raise ValueError
        known[key] = number

    def take_old(self, kept):
        """Takes the one object of the first form of a map."""
        self.plain, self.last_node, self.last_edge = kept["plain"], kept["last_node"], kept["last_edge"]
        if not isinstance(self.plain, bool) or not is_number(self.last_node) or not is_number(self.last_edge):
            raise ValueError
        self.old_edges = self.last_edge
        for space, text, number in kept["nodes"]:
            self._take_number(number, self.node_numbers)
            self._take_key(self.nodes, (space, text), number)
            self.last_node = max(self.last_node, number)

    def entries(self):
        """The lines' objects that say all this."""
        yield HEAD
        if not self.plain:
            yield {"plain": False}
        if self.fields is not None:
            yield {"edge_id": self.fields}
        for (space, text), number in self.nodes.items():
            yield node_entry(space, text, number)
        for number in sorted(self.node_numbers - set(self.nodes.values())):
            yield {"node": number}
        for key, number in self.edges.items():
            yield edge_entry(key, number)
        for number in sorted(self.edge_numbers - set(self.edges.values())):
            yield {"edge": number}
        for first, last in self.new_edges:
            yield {"new_edges": [first, last]}
        for name in ("last_node", "last_edge", "old_edges"):
            if getattr(self, name):
                yield {name: getattr(self, name)}


def extended(ranges, first, last):
    """Puts a range behind others, or into the last one where it goes on there."""
    if ranges and ranges[-1][1] == first - 1:
        first = ranges.pop()[0]
    ranges.append((first, last))


def node_entry(space, text, number):
    return {"node": number, **({"space": space} if space else {}), "id": text}


def edge_entry(key, number):
    if isinstance(key, tuple):
        return {"edge": number, "id": key[1]}
    labels, values = json.loads(key)
    return {"edge": number, "labels": labels, "values": values}


def read_map(data, path):
    """What the bytes of a map say, how many of them are whole lines, and whether they are of the present form. A last line that is torn is passed
    over."""
    numbers, at = Numbers(), 0
    lines = data.split(b"\n")
    for number, line in enumerate(lines, 1):
        ends = number < len(lines)
        if not ends and not line:
            break
        try:
            entry = json.loads(line.decode("utf-8"))
            if number == 1 and entry != HEAD:
                numbers.take_old(entry)
                if any(lines[1:]):
                    raise ValueError
                return numbers, len(data), False
            if number > 1:
                numbers.take(entry)
        except (ValueError, KeyError, TypeError, RecursionError):
            if not ends and number > 1:
                break
            raise Fault(f"{path}:{number}", "is no line of a map of ids" if number > 1 else "is no map of ids") from None
        at += len(line) + ends
    if not data:
        raise Fault(path, "is no map of ids: it is empty")
    return numbers, at, True


def locked(path, name):
    """A map that is there, open and locked."""
    while True:
        try:
            opened = os.open(path, os.O_RDWR | os.O_NONBLOCK)
        except FileNotFoundError:
            raise Fault(name, "isn't there: --new-map makes it") from None
        if not stat.S_ISREG(os.fstat(opened).st_mode):
            raise Fault(name, "is no regular file")
        lock(opened, name)
        if is_at(opened, path):
            return opened
        os.close(opened)


class IdMap(Numbers):
    """A map that gives numbers. What is new is in the file, and synced, when `keep` returns; without a path nothing is kept."""

    def __init__(self, path=None, is_new=False):
        super().__init__()
        self.path, self.opened, self.is_new = path and os.path.realpath(path), None, is_new
        self.pending, self.new_form = [], True
        if path is None:
            return
        if is_new and os.path.lexists(self.path):
            raise Fault(path, "is there already: --new-map makes a map")
        if not is_new:
            self._open(path)

    def _open(self, path):
        self.opened = locked(self.path, path)
        with open(self.opened, "rb", closefd=False) as file:
            data = file.read()
        found, whole, self.new_form = read_map(data, path)
        self.__dict__.update(found.__dict__)
        if self.new_form and whole < len(data):
            os.ftruncate(self.opened, whole)
            os.fsync(self.opened)
        if self.new_form and data[:whole][-1:] != b"\n":
            self.pending.insert(0, b"\n")
        os.lseek(self.opened, 0, os.SEEK_END)

    def add(self, entry):
        """Takes an entry that is new."""
        self.take(entry)
        if self.path:
            self.pending.append(line_of(entry))

    def node(self, space, text):
        """The number of a node that is added; ValueError with the cause where there is none."""
        number = self.nodes.get((space, text))
        if number is not None:
            return number
        is_own = self.plain and not space and WHOLE.match(text) and int(text) <= MOST_ID
        if self.plain and not is_own:
            self.add({"plain": False})
        number = int(text) if is_own else self.last_node + 1
        if number in self.node_numbers:
            raise ValueError(f"the number {number} was another node's, whose id was forgotten")
        if number > MOST_ID:
            raise ValueError("no number below 2^64 is left")
        self.add(node_entry(space, text, number))
        return number

    def known(self, space, text):
        """The number of an id that is there before, None where there is none; a plain id may stand in no map, but in the store."""
        number = self.nodes.get((space, text))
        if number is None and self.plain and WHOLE.match(text) and int(text) <= MOST_ID:
            number = int(text)
        return number

    def end(self, space, text):
        """The number of a node that is named; ValueError with the cause where there is none."""
        number = self.known(space, text)
        if number is None:
            raise ValueError(f"no node has the id {json.dumps(text)}")
        if number > self.last_node:
            self.add({"last_node": number})
        return number

    def edge(self, text):
        """The number of an edge with an id: a whole number is its own."""
        number = self.edges.get(("", text))
        if number is not None:
            return number
        if WHOLE.match(text) and int(text) <= MOST_ID:
            number = int(text)
            if number in self.edge_numbers or any(first <= number <= last for first, last in self.new_edges + self.fresh_edges):
                raise ValueError(f"the number {number} was given to another edge")
        elif self.path is None:
            raise ValueError(f"the edge's id {json.dumps(text)} is no whole number below 2^64, and others need --map")
        else:
            number = self._next_edge()
        self.add({"edge": number, "id": text})
        return number

    def identified(self, key):
        """The number of an edge with an identity."""
        number = self.edges.get(key)
        if number is None:
            number = self.last_edge = self.edges[key] = self._next_edge()
            self.edge_numbers.add(number)
            self.pending.append(line_of(edge_entry(key, number)))
        return number

    def _next_edge(self):
        if self.last_edge >= MOST_ID:
            raise ValueError("no number below 2^64 is left")
        return self.last_edge + 1

    def new_edge(self):
        """The number of an edge without an identity."""
        self.last_edge = self._next_edge()
        extended(self.fresh_edges, self.last_edge, self.last_edge)
        return self.last_edge

    def beyond(self, last_node, last_edge):
        """Numbers up to these are used elsewhere."""
        if last_node > self.last_node:
            self.add({"last_node": last_node})
        if last_edge > self.last_edge:
            self.add({"last_edge": last_edge})

    def forget(self, space, text):
        """Takes an id out, and the identities of edges that name it; the numbers stay used."""
        number = self.nodes.pop((space, text))
        ends = [at for at, field in enumerate(self.fields or ()) if field in ("from", "to")]
        for key in [key for key in self.edges if isinstance(key, str)]:
            values = json.loads(key)[1]
            if text in values or any(values[at] == number for at in ends):
                del self.edges[key]
        self.new_form = False

    def keep(self):
        """Has all that is new in the file, and synced."""
        if self.path is None:
            return
        for first, last in self.fresh_edges:
            self.add({"new_edges": [first, last]})
        self.fresh_edges = []
        try:
            if self.is_new or not self.new_form:
                self._write_whole()
            elif self.pending:
                write_all(self.opened, b"".join(self.pending))
                os.fsync(self.opened)
        except OSError as error:
            raise Fault(self.path, error.strerror) from None
        self.pending = []

    def _write_whole(self):
        opened, beside = opened_beside(self.path)
        for entry in self.entries():
            write_all(opened, line_of(entry))
        if self.opened is not None:
            os.fchmod(opened, stat.S_IMODE(os.fstat(self.opened).st_mode))
        os.fsync(opened)
        if self.is_new:
            try:
                os.link(beside, self.path)
            except FileExistsError:
                raise Fault(self.path, "is there already: --new-map makes a map") from None
            finally:
                os.unlink(beside)
        else:
            os.replace(beside, self.path)
        sync_folder(self.path)
        self.opened, self.is_new, self.new_form = opened, False, True


def write_all(opened, data):
    data = memoryview(data)
    while data:
        data = data[os.write(opened, data):]
