"""Operations and values of Python, as the text that `apply` reads."""
from __future__ import annotations

import datetime
import json
import re
from dataclasses import dataclass
from typing import Any, Dict, Iterable, Tuple, Union

Value = Union[str, int, bool, datetime.date]

MOST_ID, LONGEST_TEXT = 2**64 - 1, 65_535
_NAME = re.compile(r"[A-Za-z_][A-Za-z0-9_]{0,63}")
_string = json.JSONEncoder(ensure_ascii=False).encode


@dataclass(frozen=True)
class Operation:
    """One operation of a transaction, as the functions of this module make it."""

    text: str


Transaction = Tuple[Operation, ...]


def _id(number: int, what: str) -> int:
    if isinstance(number, bool) or not isinstance(number, int):
        raise TypeError(f"{what} is a whole number, not {type(number).__name__}")
    if not 0 <= number <= MOST_ID:
        raise ValueError(f"{what} {number} is no whole number below 2^64")
    return int(number)


def _name(name: str, what: str) -> str:
    if not isinstance(name, str):
        raise TypeError(f"a {what} is a str, not {type(name).__name__}")
    if not _NAME.fullmatch(name):
        raise ValueError(f"the {what} {name!r} is no name")
    return name


def _value(value: Value, key: str) -> str:
    """The text of a value."""
    if isinstance(value, str):
        if len(value.encode("utf-8")) > LONGEST_TEXT:
            raise ValueError(f"the text of {key} is longer than 65,535 bytes")
        return _string(value)
    if isinstance(value, bool):
        return "true" if value else "false"
    if isinstance(value, int):
        if not -(2**63) <= value < 2**63:
            raise ValueError(f"{key} is no number of 64 bits: {value}")
        return str(int(value))
    # A moment is a date for Python, and its time of day would be lost.
    if isinstance(value, datetime.date) and not isinstance(value, datetime.datetime):
        return f'{{"date":"{value.isoformat()}"}}'
    raise TypeError(f"{key} is a str, an int, a bool or a datetime.date, not {type(value).__name__}")


def _carried(labels: Iterable[str], props: Dict[str, Value]) -> str:
    names = ",".join([f'"{_name(label, "label")}"' for label in labels])
    values = ",".join([f'"{_name(key, "key")}":{_value(value, key)}' for key, value in props.items()])
    return f'"labels":[{names}],"props":{{{values}}}'


def _removal(kind: str, number: int, what: str) -> Operation:
    return Operation(f'{{"{kind}":{_id(number, what)}}}')


def _setting(kind: str, number: int, what: str, key: str, value: Value) -> Operation:
    return Operation(f'{{"{kind}":{_id(number, what)},"key":"{_name(key, "key")}","value":{_value(value, key)}}}')


def _unsetting(kind: str, number: int, what: str, key: str) -> Operation:
    return Operation(f'{{"{kind}":{_id(number, what)},"key":"{_name(key, "key")}"}}')


def _labelling(kind: str, number: int, what: str, label: str) -> Operation:
    return Operation(f'{{"{kind}":{_id(number, what)},"label":"{_name(label, "label")}"}}')


def add_node(number: int, /, *labels: str, **props: Value) -> Operation:
    """Adds a node: `add_node(1, "Holder", name="Ann")`."""
    return Operation(f'{{"add_node":{_id(number, "a node")},{_carried(labels, props)}}}')


def add_edge(number: int, source: int, target: int, /, *labels: str, **props: Value) -> Operation:
    """Adds an edge: `add_edge(1, 1, 2, "owns")`. Edges are numbered apart from nodes."""
    ends = f'"from":{_id(source, "a source")},"to":{_id(target, "a target")}'
    return Operation(f'{{"add_edge":{_id(number, "an edge")},{ends},{_carried(labels, props)}}}')


def remove_node(number: int) -> Operation:
    """Removes a node that has no edges."""
    return _removal("remove_node", number, "a node")


def detach_node(number: int) -> Operation:
    """Removes a node and all edges at it."""
    return _removal("detach_node", number, "a node")


def remove_edge(number: int) -> Operation:
    """Removes an edge."""
    return _removal("remove_edge", number, "an edge")


def set_node(number: int, key: str, value: Value) -> Operation:
    """Sets a property of a node, in place of what is there."""
    return _setting("set_node", number, "a node", key, value)


def unset_node(number: int, key: str) -> Operation:
    """Takes a property of a node away, if it is there."""
    return _unsetting("unset_node", number, "a node", key)


def label_node(number: int, label: str) -> Operation:
    """Adds a label to a node, if it isn't there."""
    return _labelling("label_node", number, "a node", label)


def unlabel_node(number: int, label: str) -> Operation:
    """Takes a label of a node away, if it is there."""
    return _labelling("unlabel_node", number, "a node", label)


def set_edge(number: int, key: str, value: Value) -> Operation:
    """Sets a property of an edge, in place of what is there."""
    return _setting("set_edge", number, "an edge", key, value)


def unset_edge(number: int, key: str) -> Operation:
    """Takes a property of an edge away, if it is there."""
    return _unsetting("unset_edge", number, "an edge", key)


def label_edge(number: int, label: str) -> Operation:
    """Adds a label to an edge, if it isn't there."""
    return _labelling("label_edge", number, "an edge", label)


def unlabel_edge(number: int, label: str) -> Operation:
    """Takes a label of an edge away, if it is there."""
    return _labelling("unlabel_edge", number, "an edge", label)


def transaction_of(operations: Iterable[Operation]) -> Transaction:
    """The transaction of these operations; a TypeError where something is none."""
    transaction = tuple(operations)
    for operation in transaction:
        if not isinstance(operation, Operation):
            raise TypeError(f"a transaction has operations, as add_node(..) makes them, not {type(operation).__name__}")
    return transaction


def line_of(transaction: Transaction) -> bytes:
    """The line that `apply` reads."""
    return ('{"ops":[' + ",".join(operation.text for operation in transaction) + "]}\n").encode("utf-8")


def value_of(read: Any) -> Value:
    """The value of Python that `json` read from a line."""
    if isinstance(read, dict):
        return datetime.date.fromisoformat(read["date"])
    value: Value = read
    return value
