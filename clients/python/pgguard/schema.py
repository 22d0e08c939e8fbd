"""What `pgcheck` says of a schema."""
from __future__ import annotations

import re
from dataclasses import dataclass
from typing import Dict, Tuple

from .answers import Guard, refused_of
from .program import run_command

# The words of the lines that don't warn.
_TOLD = ("guard", "type", "key", "forbids")


@dataclass(frozen=True)
class SchemaCheck:
    """What `pgcheck schema` says of a schema that isn't refused.

    name: the guard, which is the last graph type
    is_strict: whether it is STRICT
    guard: how many types and keys it has
    examples: of each type that something fits a transaction that adds the plainest, as a line of input
    keys: the text of each key, by its number
    warnings: the lines that warn, as docs/FORMATS.md has them; none says nothing of what was meant
    """

    name: str
    is_strict: bool
    guard: Guard
    examples: Dict[str, str]
    keys: Dict[int, str]
    warnings: Tuple[str, ...]


def check_schema(text: str) -> SchemaCheck:
    """Asks `pgcheck schema` of a schema text. A schema that is refused raises Refused, whose causes say where the fault lies."""
    ended = run_command(["schema"], text, "pgcheck")
    words = [line.split(" ") for line in ended.lines]
    if ended.status == 3 and words[:1] and words[0][:2] == ["schema", "refused"]:
        causes = tuple(line.partition("because ")[2] for line in ended.lines[1:])
        raise refused_of(ended.lines[0].partition(" refused ")[2], causes=causes)
    if ended.status not in (0, 1) or not words or words[0][0] != "guard":
        raise ended.fault()
    # A name may have any character but a line's end.
    examples = {found[1]: found[2] for line in ended.lines for found in [re.fullmatch(r'type (.*) (\{"ops":.*)', line)] if found}
    keys = {int(line[1]): " ".join(line[2:]) for line in words if line[0] == "key"}
    warnings = tuple(line for line in ended.lines if line.partition(" ")[0] not in _TOLD)
    counts = dict(word.split("=") for word in words[0][-2:])
    return SchemaCheck(" ".join(words[0][1:-3]), words[0][-3] == "STRICT", Guard(int(counts["types"]), int(counts["keys"])), examples, keys, warnings)
