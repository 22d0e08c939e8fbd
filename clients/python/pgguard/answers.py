"""What the program answers, taken apart: verdicts, refusals, elements and key values."""
from __future__ import annotations

import datetime
import json
import re
from dataclasses import dataclass
from typing import Dict, FrozenSet, List, NamedTuple, Optional, Tuple, Union

from .operations import Transaction, Value


class Element(NamedTuple):
    """A node or an edge by its number, written as `n1` or `e1`."""

    kind: str
    number: int

    def __str__(self) -> str:
        return f"{self.kind[0]}{self.number}"


Part = Union[Value, Element]
KeyValue = Tuple[Part, ...]

_ELEMENT = re.compile(r"\b([ne])([0-9]+)\b")
_PART = re.compile(r"([ne])([0-9]+)|([0-9]{4}-[0-9]{2}-[0-9]{2})|(-?[0-9]+)|(true|false)")
_STRINGS = json.JSONDecoder()


def element_of(text: str) -> Element:
    """The element of `n1` or `e1`."""
    found = _ELEMENT.fullmatch(text)
    if found is None:
        raise ValueError(f"{text!r} is no element: n1 or e1 is wanted")
    return Element("node" if found[1] == "n" else "edge", int(found[2]))


def _part(text: str, at: int) -> Tuple[Part, int]:
    if text[at] == '"':
        string, end = _STRINGS.raw_decode(text, at)
        return str(string), end
    found = _PART.match(text, at)
    if found is None:
        raise ValueError(f"no part of a tuple: {text[at:at + 40]!r}")
    part: Part
    if found[1]:
        part = element_of(found[0])
    elif found[3]:
        part = datetime.date.fromisoformat(found[3])
    else:
        part = int(found[4]) if found[4] else found[5] == "true"
    return part, found.end()


def _tuple(text: str, at: int) -> Tuple[KeyValue, int]:
    """The tuple whose `(` stands at a place, and the place behind it."""
    parts: List[Part] = []
    while text[at] != ")":
        at += 1 if text[at] == "(" else 2
        part, at = _part(text, at)
        parts.append(part)
    return tuple(parts), at + 1


def tuples_of(text: str) -> Tuple[KeyValue, ...]:
    """The tuples at the end of a text: one, or two with `and` between them."""
    found: List[KeyValue] = []
    at = text.find("(")
    while at >= 0:
        value, end = _tuple(text, at)
        found.append(value)
        at = text.find("(", end)
    return tuple(found)


class Refused(Exception):
    """The program refused a transaction, or a schema. Nothing was changed.

    number: the number of the refusal, as docs/FORMATS.md lists them
    text: its text, without the number
    key: the number of the key that is violated, or None
    operation: the number of the operation that can't be done, or None
    elements: the elements that the text names
    tuples: the key values that the text names: one of 29, two of 28
    transaction: what was refused; empty where it was a schema
    causes: what `pgcheck` says of it, a text each, where that was asked
    """

    def __init__(self, number: int, text: str, transaction: Transaction = (), causes: Tuple[str, ...] = ()) -> None:
        super().__init__(number, text, transaction, causes)
        self.number, self.text, self.transaction, self.causes = number, text, transaction, causes
        place = re.match(r"(key|op) ([0-9]+): ", text)
        self.key: Optional[int] = int(place[2]) if place and place[1] == "key" else None
        self.operation: Optional[int] = int(place[2]) if place and place[1] == "op" else None
        self.tuples: Tuple[KeyValue, ...] = tuples_of(text) if number in (28, 29) else ()
        # A schema's names may look like elements.
        named = text.split("(", 1)[0] if 23 <= number <= 29 or number == 39 else ""
        self.elements: Tuple[Element, ...] = tuple(element_of(found[0]) for found in _ELEMENT.finditer(named))

    def __str__(self) -> str:
        return f"{self.number} {self.text}"


def refused_of(text: str, transaction: Transaction = (), causes: Tuple[str, ...] = ()) -> Refused:
    """The refusal of a text that begins with its number."""
    number, _, rest = text.partition(" ")
    return Refused(int(number), rest, transaction, causes)


def causes_of(lines: List[str], refused: Refused) -> Tuple[str, ...]:
    """The causes that `pgcheck apply` tells of one transaction; none where it refused it for another reason, or accepted it."""
    if lines[:1] != [f"1 refused {refused}"]:
        return ()
    return tuple(line.partition("1 because ")[2] for line in lines[1:])


@dataclass(frozen=True)
class Committed:
    """A transaction that is on the disk, and the number of its commit."""

    number: int
    transaction: Transaction


Verdict = Union[Committed, Refused]


class Guard(NamedTuple):
    """How many types and keys the graph type in force has."""

    types: int
    keys: int


class Checkpoint(NamedTuple):
    """The epoch of a checkpoint, and how many commits the store has."""

    epoch: int
    commits: int


@dataclass(frozen=True)
class Node:
    """A node of the store."""

    number: int
    labels: FrozenSet[str]
    props: Dict[str, Value]


@dataclass(frozen=True)
class Edge:
    """An edge of the store, from its source to its target."""

    number: int
    source: int
    target: int
    labels: FrozenSet[str]
    props: Dict[str, Value]


@dataclass(frozen=True)
class Explanation:
    """The types that an element fits, the abstract ones apart; and of each key in whose scope it is the values that it has there."""

    types: Tuple[str, ...]
    abstract: Tuple[str, ...]
    keys: Dict[int, Tuple[KeyValue, ...]]


def explanation_of(lines: List[str]) -> Explanation:
    """What the lines of `explain` tell."""
    types: List[str] = []
    abstract: List[str] = []
    keys: Dict[int, Tuple[KeyValue, ...]] = {}
    for line in lines:
        word, _, rest = line.partition(" ")
        if word == "type":
            types.append(rest)
        elif word == "abstract":
            abstract.append(rest)
        else:
            number, _, told = rest.partition(" ")
            keys[int(number)] = keys.get(int(number), ()) + tuples_of(told)
    return Explanation(tuple(types), tuple(abstract), keys)
