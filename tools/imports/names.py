"""The ids of numbers, read from a map while another run may write it."""
import json
import os
from graph_lines import Fault
from imports.id_map import read_map


class Names:
    """The names of elements by a map. The map grows before a number is used, so it is looked at again where one isn't known."""

    def __init__(self, path):
        self.path, self.at, self.file, self.numbers, self.names = path, 0, None, None, {}

    def of(self, element):
        """What the map says of an element as n1 or e1, None where it says nothing."""
        if element not in self.names:
            self._look()
        return self.names.get(element)

    def _look(self):
        found = os.stat(self.path)
        if (found.st_dev, found.st_ino) != self.file:
            self._read_whole()
        elif found.st_size > self.at:
            with open(self.path, "rb") as file:
                file.seek(self.at)
                self._take(file.read())

    def _read_whole(self):
        with open(self.path, "rb") as file:
            found = os.fstat(file.fileno())
            data = file.read()
        self.file = (found.st_dev, found.st_ino)
        self.numbers, self.at, _ = read_map(data, self.path)
        self.names = {}
        for entry in self.numbers.entries():
            self._name(entry)

    def _take(self, data):
        whole = data[:data.rfind(b"\n") + 1]
        self.at += len(whole)
        for line in filter(None, whole.split(b"\n")):
            try:
                entry = json.loads(line)
                self.numbers.take(entry)
            except (ValueError, KeyError, TypeError):
                raise Fault(self.path, "has a line that is none of a map of ids") from None
            self._name(entry)

    def _name(self, entry):
        if "node" in entry and "id" in entry:
            space = entry.get("space", "")
            self.names[f"n{entry['node']}"] = (f"{space} " if space else "") + shown(entry["id"])
        elif "edge" in entry and "id" in entry:
            self.names[f"e{entry['edge']}"] = shown(entry["id"])
        elif "edge" in entry and "labels" in entry:
            self.names[f"e{entry['edge']}"] = self._identity(entry)

    def _identity(self, entry):
        parts = []
        for at, value in enumerate(entry["values"]):
            is_end = self.numbers.fields and at < len(self.numbers.fields) and self.numbers.fields[at] in ("from", "to")
            parts.append(self.names.get(f"n{value}", f"n{value}") if is_end else shown(value))
        return f"{' & '.join(entry['labels'])}({', '.join(parts)})"


def shown(value):
    return "-" if value is None else value["date"] if isinstance(value, dict) else json.dumps(value, ensure_ascii=False)
