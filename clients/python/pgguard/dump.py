"""The elements of a store, read from `recover` as they come."""
from __future__ import annotations

import json
import subprocess
import tempfile
from typing import Any, Dict, Iterator, Optional, Tuple, Union

from .answers import Edge, Node
from .faults import fault_of
from .operations import value_of
from .program import last_line, start


class Dump:
    """One process of `recover`."""

    def __init__(self, name: str) -> None:
        self._told = tempfile.TemporaryFile()
        self._process = start(["recover", name], stdin=subprocess.DEVNULL, stdout=subprocess.PIPE, stderr=self._told)
        self._first = ""

    def elements(self) -> Iterator[Union[Node, Edge]]:
        """Each node and each edge, once all of its properties came."""
        stdout = self._process.stdout
        assert stdout is not None
        for line in stdout:
            self._first = self._first or line.decode("utf-8", "replace").rstrip("\n")
            if line == b"---\n":
                break
        begun: Optional[Dict[str, Any]] = None
        for line in stdout:
            (operation,) = json.loads(line)["ops"]
            if "add_node" in operation or "add_edge" in operation:
                if begun is not None:
                    yield _element(begun)
                begun = operation
            else:
                assert begun is not None
                begun["props"][operation["key"]] = operation["value"]
        # The properties of the last one may be cut with the process.
        self._end()
        if begun is not None:
            yield _element(begun)

    def _end(self) -> None:
        status = self._process.wait()
        if status != 0:
            raise fault_of(status, self._first if status in (3, 4) else last_line(self._told))

    def close(self) -> None:
        """Ends the process, wherever it is."""
        self._process.kill()
        self._process.wait()
        if self._process.stdout is not None:
            self._process.stdout.close()
        self._told.close()


def _element(members: Dict[str, Any]) -> Union[Node, Edge]:
    labels = frozenset(members["labels"])
    props = {key: value_of(value) for key, value in members["props"].items()}
    if "add_node" in members:
        return Node(members["add_node"], labels, props)
    return Edge(members["add_edge"], members["from"], members["to"], labels, props)
