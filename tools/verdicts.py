"""Verdicts and violations, read as docs/FORMATS.md has them. What the tools of this folder share; not a tool itself."""
import json
import re
from graph_lines import Fault, is_blank, numbered

PART = r'(?:"(?:\\.|[^"\\])*"|true|false|[0-9]{4}-[0-9]{2}-[0-9]{2}|-?[0-9]+|[ne][0-9]+)'
TUPLE = rf"\({PART}(?:, {PART})*\)"
ELEMENT = "[ne][0-9]{1,20}"
REFUSED = re.compile("([0-9]{1,20}) refused ([0-9]{2}) (.*)", re.DOTALL)
COMMITTED = re.compile("([0-9]{1,20}) committed ([0-9]{1,20})")
OTHERS = re.compile("(violation|evolve refused|schema refused|second schema refused|store refused) ([0-9]{2}) (.*)", re.DOTALL)
TOLD = re.compile("(feeds lost|loaded types|evolved types|checkpoint epoch)=.*")
# What a text says, by its number: its groups are named.
TEXTS = {
    22: "(?P<count>[0-9]+) operations, at most (?P<most>[0-9]+)",
    24: "(?P<count>[0-9]+) elements, at most (?P<most>[0-9]+)",
    23: f"op (?P<op>[0-9]+): (?:(?P<first>{ELEMENT}) is already there|no (?:node|edge) (?P<second>{ELEMENT})|"
        f"(?P<third>{ELEMENT}) still has edge (?P<fourth>{ELEMENT}))",
    25: f"node (?P<first>{ELEMENT}) fits no type",
    26: f"edge (?P<first>{ELEMENT}) fits no type",
    27: f"key (?P<key>[0-9]+): (?P<first>{ELEMENT}) has no key value",
    28: f"key (?P<key>[0-9]+): (?P<first>{ELEMENT}) has (?P<tuple>{TUPLE}) and (?P<other>{TUPLE})",
    29: f"key (?P<key>[0-9]+): (?P<first>{ELEMENT}) and (?P<second>{ELEMENT}) share (?P<tuple>{TUPLE})",
    38: "op (?P<op>[0-9]+): more than 64 labels or 256 properties",
    39: f"key (?P<key>[0-9]+): (?P<first>{ELEMENT}) has (?P<count>[0-9]+) values, outside (?P<least>[0-9]+)\\.\\.(?P<most>[0-9]+)",
}
TEXTS = {number: re.compile(text) for number, text in TEXTS.items()}


def part(text):
    """A part of a tuple: a text, a number and a truth value are their own in JSON, a day and an element are objects."""
    if text[0] in "ne":
        return {"element": text}
    return {"date": text} if text.count("-") == 2 and text[0] not in '-"' else json.loads(text)


def read_text(number, text):
    """What the text of a refusal says, by name; nothing beside the text where it has another form."""
    said = {"number": number, "text": text}
    found = TEXTS[number].fullmatch(text) if number in TEXTS else None
    if found is None:
        return said
    groups = {name: value for name, value in found.groupdict().items() if value is not None}
    elements = [groups.pop(name) for name in ("first", "second", "third", "fourth") if name in groups]
    tuples = [[part(one) for one in re.findall(PART, groups.pop(name))] for name in ("tuple", "other") if name in groups]
    said.update({name: int(value) for name, value in groups.items()})
    said.update({"elements": elements} if elements else {})
    said.update({"tuples": tuples} if tuples else {})
    return said


def read_verdict(line, place):
    """A verdict as an object: a line of a run has `line`. None where the line tells something else of a run."""
    try:
        text = line.decode("utf-8")
        committed, refused, other = (form.fullmatch(text) for form in (COMMITTED, REFUSED, OTHERS))
        if committed:
            return {"line": int(committed[1]), "verdict": "committed", "commit": int(committed[2])}
        if refused:
            return {"line": int(refused[1]), "verdict": "refused", **read_text(int(refused[2]), refused[3])}
        if other:
            return {"verdict": other[1], **read_text(int(other[2]), other[3])}
        if TOLD.fullmatch(text):
            return None
    except ValueError:
        pass
    raise Fault(place, "is no verdict and no violation")


def verdicts(path):
    """Each verdict with its place. A torn last line isn't one."""
    for place, line, whole in numbered(path):
        if whole:
            found = read_verdict(line, place)
            if found is not None:
                yield place, found


class InputLines:
    """The lines of an input that a run numbers, read as far as they are asked for."""

    def __init__(self, path):
        self.path, self.number = path, 0
        self.lines = (line for _, line, _ in numbered(path) if not is_blank(line))
        self.line = None

    def get(self, number, place):
        """The line of this number, which isn't below the last that was asked for."""
        if number < self.number:
            raise Fault(place, f"line {number} stands behind line {self.number}")
        while self.number < number:
            self.line = next(self.lines, None)
            if self.line is None:
                raise Fault(place, f"{self.path} has no line {number} that isn't blank")
            self.number += 1
        return self.line

    def rest(self):
        return self.lines
