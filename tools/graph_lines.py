"""Transactions as lines of JSON, read and written as docs/FORMATS.md says. What the tools of this folder share; not a tool itself."""
import errno
import io
import json
import os
import re
import sys
from progress import progress

LONGEST_LINE, MOST_OPS = 1_048_576, 10_000
MOST_ID, MOST_LABELS, MOST_PROPS, LONGEST_TEXT = 2**64 - 1, 64, 256, 65_535
NAME = re.compile(r"[A-Za-z_][A-Za-z0-9_]{0,63}\Z")
DAY = re.compile(r"([0-9]{4})-([0-9]{2})-([0-9]{2})\Z")


class Fault(Exception):
    """What is wrong, and where: a file and a line, or a place of a file."""

    def __init__(self, place, text):
        super().__init__(f"{place}: {text}")
        self.place, self.text = place, text


class Missing(Exception):
    """A program that isn't installed."""


class WholeLines(io.BufferedIOBase):
    """Standard output, which gets whole lines at a time, so that who is killed leaves no front of one."""

    def __init__(self, raw):
        self.raw, self.kept, self.size = raw, [], 0
        self.is_terminal = raw.isatty()

    def writable(self):
        return True

    def write(self, piece):
        self.kept.append(bytes(piece))
        self.size += len(piece)
        if self.size >= 1 << 16:
            text = b"".join(self.kept)
            end = text.rfind(b"\n") + 1
            self.kept, self.size = [text[end:]], len(text) - end
            self.put(text[:end])
        return len(piece)

    def flush(self):
        text = b"".join(self.kept)
        self.kept, self.size = [], 0
        self.put(text)

    def put(self, text):
        if text and self.is_terminal:
            progress.clear()
        left = memoryview(text)
        while left:
            count = self.raw.write(left)
            if count is None:
                raise OSError(errno.EAGAIN, "is not ready and does not wait")
            left = left[count:]


def run(main):
    """Runs a tool: a fault is one line on standard error and status 1, a program that is missing 77, a closed pipe ends it."""
    try:
        if sys.stdout is None:
            raise Fault("standard output", "is not open")
        raw = open(sys.stdout.fileno(), "wb", buffering=0, closefd=False)
        sys.stdout = io.TextIOWrapper(WholeLines(raw), encoding="utf-8", newline="\n", write_through=True)
        progress.begin(tool_name())
        main()
        sys.stdout.flush()
        progress.clear()
    except Missing as missing:
        print(f"{tool_name()}: {missing} isn't installed", file=sys.stderr)
        sys.exit(77)
    except Fault as fault:
        print(f"{tool_name()}: {fault}", file=sys.stderr)
        sys.exit(1)
    except OSError as error:
        if not isinstance(error, BrokenPipeError):
            print(f"{tool_name()}: {error.filename or 'output'}: {error.strerror}", file=sys.stderr)
        sys.stderr.flush()
        # What couldn't be written is left: else the interpreter tries it again at its end.
        os._exit(1)
    except KeyboardInterrupt:
        progress.clear()
        sys.exit(130)


def tool_name():
    return sys.argv[0].rsplit("/", 1)[-1]


def counted(commits):
    return "1 commit" if commits == 1 else f"{commits} commits"


def opened(path):
    """A file's lines as bytes, and its name for messages; `-` is standard input."""
    if path == "-":
        return sys.stdin.buffer, "standard input"
    return open(path, "rb"), path


def numbered(path):
    """The place of each line and the line without its line feed, and whether it has one."""
    lines, name = opened(path)
    part = progress.reading(name, lines.fileno())
    for number, line in enumerate(lines, 1):
        part.lines = number
        whole = line.endswith(b"\n")
        yield f"{name}:{number}", line[:-1] if whole else line, whole


def is_blank(line):
    return not line.strip(b" \t\r") and len(line) <= LONGEST_LINE


class Whole(int):
    """A whole number as it stands in JSON; `-0` is none."""


def _whole(text):
    return float("nan") if text == "-0" else Whole(text)


def _no_constant(text):
    raise ValueError(text)


_DECODER = json.JSONDecoder(parse_int=_whole, parse_constant=_no_constant)


def read_value(line, place):
    """The JSON value of a line, as strictly as the program reads it."""
    try:
        text = line.decode("utf-8")
        value = _DECODER.decode(text)
        if "\\u" in text:
            json.dumps(value, ensure_ascii=False).encode("utf-8")
        return value
    except (ValueError, RecursionError) as error:
        raise Fault(place, f"no JSON ({error})") from None


def _name(text, what, place):
    if not isinstance(text, str) or not NAME.match(text):
        raise Fault(place, f"{what} {json.dumps(text)} is no name")
    return text


def _id(number, what, place):
    if not isinstance(number, Whole) or not 0 <= number <= MOST_ID:
        raise Fault(place, f"{what} is no whole number below 2^64")
    return int(number)


def is_day(text):
    """Whether a text is a day of the years 1 to 9999."""
    found = DAY.match(text) if isinstance(text, str) else None
    if not found:
        return False
    year, month, day = map(int, found.groups())
    leap = year % 4 == 0 and (year % 100 != 0 or year % 400 == 0)
    days = [31, 29 if leap else 28, 31, 30, 31, 30, 31, 31, 30, 31, 30, 31]
    return year >= 1 and 1 <= month <= 12 and 1 <= day <= days[month - 1]


def _value(value, place):
    if isinstance(value, bool):
        return value
    if isinstance(value, str):
        if len(value.encode("utf-8")) > LONGEST_TEXT:
            raise Fault(place, "a text is longer than 65,535 bytes")
        return value
    if isinstance(value, Whole):
        if not -(2**63) <= value < 2**63:
            raise Fault(place, f"{int(value)} is no number of 64 bits")
        return int(value)
    if isinstance(value, dict) and list(value) == ["date"] and is_day(value["date"]):
        return value
    raise Fault(place, f"{json.dumps(value)[:60]} is no value")


def _labels(labels, place):
    if not isinstance(labels, list):
        raise Fault(place, "labels are no list")
    return sorted({_name(label, "label", place) for label in labels})


def _props(props, place):
    if not isinstance(props, dict):
        raise Fault(place, "props are no object")
    return {_name(key, "key", place): _value(props[key], place) for key in sorted(props)}


# The member that names an operation, and its other members: those that have to be there, and those that may.
FORMS = {
    "add_node": ((), ("labels", "props")),
    "add_edge": (("from", "to"), ("labels", "props")),
    "remove_node": ((), ()),
    "detach_node": ((), ()),
    "remove_edge": ((), ()),
}
for _kind in ("node", "edge"):
    FORMS["set_" + _kind] = (("key", "value"), ())
    FORMS["unset_" + _kind] = (("key",), ())
    FORMS["label_" + _kind] = (("label",), ())
    FORMS["unlabel_" + _kind] = (("label",), ())


def kind_of(op):
    """The name of an operation."""
    return next(kind for kind in op if kind in FORMS)


def _op(op, place):
    if not isinstance(op, dict):
        raise Fault(place, "an operation is no object")
    kinds = [kind for kind in op if kind in FORMS]
    if len(kinds) != 1:
        raise Fault(place, "an operation has no kind, or two")
    kind = kinds[0]
    wanted, optional = FORMS[kind]
    for member in op:
        if member != kind and member not in wanted and member not in optional:
            raise Fault(place, f"{kind} has no member {json.dumps(member)}")
    for member in wanted:
        if member not in op:
            raise Fault(place, f"{kind} lacks {member}")
    read = {kind: _id(op[kind], kind, place)}
    for end in ("from", "to"):
        if end in wanted:
            read[end] = _id(op[end], end, place)
    for name in ("key", "label"):
        if name in wanted:
            read[name] = _name(op[name], name, place)
    if "value" in wanted:
        read["value"] = _value(op["value"], place)
    if "labels" in optional:
        read["labels"] = _labels(op.get("labels", []), place)
        read["props"] = _props(op.get("props", {}), place)
    return read


def ops_of(value, place):
    """The operations of a list, each with all its members, labels ascending."""
    if not isinstance(value, list):
        raise Fault(place, "ops are no list")
    return [_op(op, place) for op in value]


def read_txn(line, place):
    """The operations of a transaction's line."""
    value = read_value(line, place)
    if not isinstance(value, dict) or list(value) != ["ops"]:
        raise Fault(place, 'no transaction: an object with the one member "ops" is wanted')
    return ops_of(value["ops"], place)


def read_commit(line, place):
    """The number of a feed's line, and its operations."""
    value = read_value(line, place)
    if not isinstance(value, dict) or sorted(value) != ["commit", "ops"]:
        raise Fault(place, 'no feed line: an object with the members "commit" and "ops" is wanted')
    number = _id(value["commit"], "commit", place)
    if number == 0:
        raise Fault(place, "commit is 0")
    return number, ops_of(value["ops"], place)


_canonical = json.JSONEncoder(ensure_ascii=False, sort_keys=True, separators=(",", ":")).encode


def written(value):
    """The canonical text: no spaces, members in the order of their bytes."""
    return _canonical(value).encode("utf-8")


def shortest(op):
    """An operation without the members that may be left out: a feed always has them, so its line may be longer than a transaction's may."""
    return {name: value for name, value in op.items() if value or name not in ("labels", "props")}


def txn_line(ops):
    """A transaction's line, which is no longer than any other line of this transaction."""
    return b'{"ops":[' + b",".join(written(shortest(op)) for op in ops) + b"]}\n"


def feed_line(commit, ops):
    return b'{"commit":%d,"ops":[' % commit + b",".join(map(written, ops)) + b"]}\n"


class Lines:
    """Puts operations into as few lines as the limits allow, in order."""

    def __init__(self, out, most_ops=MOST_OPS):
        self.out, self.most_ops, self.count = out, most_ops, 0
        self.texts, self.size = [], len(b'{"ops":[]}')

    def room(self):
        """How many bytes an operation may have to stand in a line of its own."""
        return LONGEST_LINE - len(b'{"ops":[]}')

    def add(self, text):
        if self.texts and (len(self.texts) >= self.most_ops or self.size + 1 + len(text) > LONGEST_LINE):
            self.end()
        self.size += len(text) + bool(self.texts)
        self.texts.append(text)

    def end(self):
        if self.texts:
            self.out.write(b'{"ops":[' + b",".join(self.texts) + b"]}\n")
            self.texts, self.size = [], len(b'{"ops":[]}')
            self.count += 1


def added(op, lines):
    """Puts an add; where it would be longer than a line, with the properties that fit, and the others as operations of their own."""
    text = written(op)
    if len(text) <= lines.room():
        lines.add(text)
        return
    kind = kind_of(op)
    what = "set_node" if kind == "add_node" else "set_edge"
    fit, size, left = {}, len(written({**op, "props": {}})), []
    for key, value in op["props"].items():
        one = len(written({key: value})) - 1
        if size + one <= lines.room():
            fit[key], size = value, size + one
        else:
            left.append({what: op[kind], "key": key, "value": value})
    lines.add(written({**op, "props": fit}))
    for op in left:
        lines.add(written(op))


def read_dump(path, schema=None):
    """Each operation of each line with its place. Where the first line isn't JSON, a schema's text comes first, up to a line `---`; its lines go into a
    list where one is given."""
    in_schema = begun = False
    for place, line, _ in numbered(path):
        if is_blank(line):
            continue
        if not begun:
            begun, in_schema = True, not line.lstrip().startswith(b"{")
        if in_schema:
            in_schema = line.rstrip(b"\r") != b"---"
            if in_schema and schema is not None:
                schema.append(line)
            continue
        for op in read_txn(line, place):
            yield place, op
    if in_schema:
        raise Fault("standard input" if path == "-" else path, "no line `---` behind the schema, and no operations")
