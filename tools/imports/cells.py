"""What a column of a CSV file is, and what its cells say."""
import json
import re
from graph_lines import Fault, LONGEST_TEXT, NAME, is_day

WHOLE = re.compile(r"(0|[1-9][0-9]{0,19})\Z")
NUMBER = re.compile(r"(0|-?[1-9][0-9]{0,18})\Z")
# A sign, a whole part in groups of three or in none, and one or two decimals behind the other sign.
AMOUNT = re.compile(r"([+-]?)([0-9]{1,3}(?:([.,' \u00a0\u202f])[0-9]{3})(?:\3[0-9]{3})*|[0-9]+)(?:([.,])([0-9]{1,2}))?\Z")
TYPES = {
    "": "string", "string": "string", "char": "string", "int": "int", "long": "int", "short": "int", "byte": "int", "bool": "bool",
    "boolean": "bool", "date": "date",
}
ROLES = {"ID": "id", "LABEL": "labels", "TYPE": "labels", "START_ID": "from", "END_ID": "to", "IGNORE": "nothing"}
PLAIN_ROLES = ("id", "labels", "from", "to")


class DateForm:
    """A form of days, as DD.MM.YYYY: YYYY, MM or M, DD or D, and what stands between them."""

    PARTS = {"YYYY": "(?P<Y>[0-9]{4})", "MM": "(?P<M>[0-9]{2})", "M": "(?P<M>[0-9]{1,2})", "DD": "(?P<D>[0-9]{2})", "D": "(?P<D>[0-9]{1,2})"}

    def __init__(self, text):
        parts = re.split("(YYYY|MM|M|DD|D)", text)
        named, between = parts[1::2], parts[2:-1:2]
        touching = "" in between and ("D" in named or "M" in named)
        if sorted(part[0] for part in named) != ["D", "M", "Y"] or touching:
            raise Fault("--date-form", f"{json.dumps(text)} has to have YYYY, MM or M, and DD or D, each once")
        self.text = text
        self.pattern = re.compile("".join(self.PARTS.get(part, re.escape(part)) for part in parts) + r"\Z")

    def day(self, text):
        """The day as YYYY-MM-DD, None where the text is none."""
        found = self.pattern.match(text)
        if found is None:
            return None
        day = f"{found['Y']}-{int(found['M']):02}-{int(found['D']):02}"
        return day if is_day(day) else None


class Reading:
    """How the files of a run are written, and which of their columns are left out."""

    def __init__(self, delimiter=",", encoding="utf-8-sig", date_form=None, cents=(), skipped=(), keeps_text=False):
        self.delimiter, self.encoding, self.cents, self.skipped = delimiter, encoding, set(cents), set(skipped)
        self.keeps_text = keeps_text
        self.date_form = DateForm(date_form) if date_form else None
        self.met = set()

    def unmet(self):
        """The names of --cents and --skip that no file has."""
        return sorted((self.cents | self.skipped) - self.met)


class Field:
    """What a column is: its role, its id space, and of a property its name and kind."""

    def __init__(self, text, reading):
        name, _, kind = text.partition(":")
        self.space = ""
        if "(" in kind:
            kind, _, rest = kind.partition("(")
            self.space = rest.rstrip(")")
        self.text, self.name, self.kind = text, None, None
        if reading.skipped & {text, name}:
            reading.met.update({text, name})
            self.role = "nothing"
            return
        self.role = ROLES.get(kind.upper(), "property") if kind else name if name in PLAIN_ROLES else "property"
        if self.role == "property" or (self.role == "id" and kind and name):
            self.name, self.kind = name, self._kind(name, kind, reading)

    def _kind(self, name, kind, reading):
        if not NAME.match(name):
            raise ValueError(f"the field {json.dumps(self.text)} has no name of ASCII letters, digits and _")
        found = "string" if self.role == "id" else TYPES.get(kind.lower())
        if found is None:
            raise ValueError(f"the field {json.dumps(self.text)} has the kind {json.dumps(kind)}: int, bool, date or string is wanted")
        self.date_form = reading.date_form
        if name not in reading.cents:
            return found
        reading.met.add(name)
        if kind and found != "int":
            raise ValueError(f"the field {json.dumps(self.text)} is named by --cents, and its kind isn't int")
        return "cents"

    def value(self, text):
        """What a cell says, which isn't empty; ValueError with the cause where it says nothing of this kind."""
        if self.kind == "string":
            if len(text) > LONGEST_TEXT // 4 and len(text.encode("utf-8")) > LONGEST_TEXT:
                raise ValueError("the text is longer than 65,535 bytes")
            return text
        if self.kind == "int":
            return whole_of_64_bits(text, int(text)) if NUMBER.match(text) else not_whole(text)
        if self.kind == "cents":
            return cents(text)
        if self.kind == "bool":
            if text.lower() not in ("true", "false"):
                raise ValueError(f"{json.dumps(text)} is neither true nor false")
            return text.lower() == "true"
        day = self.date_form.day(text) if self.date_form else text if is_day(text) else None
        if day is None:
            raise ValueError(f"{json.dumps(text)} is no day as {self.date_form.text if self.date_form else '2024-02-29'}")
        return {"date": day}


def not_whole(text):
    raise ValueError(f"{json.dumps(text)} is no whole number of 64 bits")


def whole_of_64_bits(text, number):
    return number if -(2**63) <= number < 2**63 else not_whole(text)


def cents(text):
    """An amount in hundredths: `1.234,56`, `1,234.56`, `1234,5` or `1234`."""
    found = AMOUNT.match(text)
    if found is None or found[3] is not None and found[3] == found[4]:
        raise ValueError(f"{json.dumps(text)} is no amount as 1.234,56 or 1234.56")
    sign, whole, group, decimal, decimals = found.groups()
    if group in (".", ",") and decimal is None and whole.count(group) == 1:
        raise ValueError(f"{json.dumps(text)} may have a group or three decimals: write it with two decimals")
    digits = re.sub("[^0-9]", "", whole)
    number = int(digits) * 100 + int((decimals or "0").ljust(2, "0"))
    return whole_of_64_bits(text, -number if sign == "-" else number)
