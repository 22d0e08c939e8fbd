"""What keeps the program from deciding, and what is undecided then."""
from __future__ import annotations

from typing import Optional, Tuple, Type

from .operations import Transaction


class Fault(Exception):
    """The program ended, or wasn't begun: it is no answer to a transaction.

    status: the exit status of the program; negative for the signal that ended it; None where it wasn't begun
    said: the last line that tells why, or nothing
    undecided: the transactions that were handed over and have no whole verdict, in order; at most the first one is in the store
    commits: how many commits the store had by the last whole line, so `store.commits() - fault.commits` undecided ones went in
    """

    def __init__(self, status: Optional[int], said: str, undecided: Tuple[Transaction, ...] = (), commits: int = 0) -> None:
        super().__init__(status, said, undecided, commits)
        self.status, self.said, self.undecided, self.commits = status, said, undecided, commits

    def __str__(self) -> str:
        ended = "" if self.status is None else f"ended with status {self.status}"
        left = f"{len(self.undecided)} undecided" if self.undecided else ""
        return ", ".join(part for part in (self.said, ended, left) if part)

    def leaves(self, undecided: Tuple[Transaction, ...]) -> None:
        """Adds transactions behind the undecided ones."""
        self.undecided += undecided
        self.args = (self.status, self.said, self.undecided, self.commits)


class Locked(Fault):
    """Another run has the store."""


class NoStore(Fault):
    """There is no store of this name."""


class Damaged(Fault):
    """A record of the store can't be read, or gives no graph that conforms: restore both files from a copy."""


class FeedLost(Fault):
    """A feed failed during the run, and lacks commits from then on. All verdicts are right.

    Mend the feed before a checkpoint drops the commits that it lacks: docs/GUIDE.md, "Copies, and a feed that was lost".
    """


class Mismatch(Fault):
    """The feed and the store don't fit together, or the store has fewer commits than were acknowledged; `anyway=True` takes them as they are."""


def fault_of(status: int, said: str, undecided: Tuple[Transaction, ...] = (), commits: int = 0) -> Fault:
    """The fault that an exit status and a line tell."""
    kind: Type[Fault] = Fault
    if status == 5 and said.endswith(": is locked by another run"):
        kind = Locked
    elif status == 4 and said.startswith("store refused 30 "):
        kind = NoStore
    elif status == 4 and said.startswith(("store refused 33 ", "store refused 34 ")):
        kind = Damaged
    return kind(status, said, undecided, commits)
