"""A client of pgguard: transactions of Python, decided by one `apply` that runs beside it.

    with pgguard.Store("bank", feed="bank.feed") as store:
        number = store.apply(add_node(1, "Holder", name="Ann"), add_edge(1, 1, 2, "owns"))
"""
from .answers import Checkpoint, Committed, Edge, Element, Explanation, Guard, KeyValue, Node, Part, Refused, Verdict
from .faults import Damaged, Fault, FeedLost, Locked, Mismatch, NoStore
from .operations import (
    Operation,
    Transaction,
    Value,
    add_edge,
    add_node,
    detach_node,
    label_edge,
    label_node,
    remove_edge,
    remove_node,
    set_edge,
    set_node,
    unlabel_edge,
    unlabel_node,
    unset_edge,
    unset_node,
)
from .schema import SchemaCheck, check_schema
from .store import Store

__all__ = [
    "Checkpoint",
    "Committed",
    "Damaged",
    "Edge",
    "Element",
    "Explanation",
    "Fault",
    "FeedLost",
    "Guard",
    "KeyValue",
    "Locked",
    "Mismatch",
    "NoStore",
    "Node",
    "Operation",
    "Part",
    "Refused",
    "SchemaCheck",
    "Store",
    "Transaction",
    "Value",
    "Verdict",
    "add_edge",
    "add_node",
    "check_schema",
    "detach_node",
    "label_edge",
    "label_node",
    "remove_edge",
    "remove_node",
    "set_edge",
    "set_node",
    "unlabel_edge",
    "unlabel_node",
    "unset_edge",
    "unset_node",
]
