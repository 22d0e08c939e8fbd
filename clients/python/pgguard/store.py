"""A store, over one `apply` that runs beside the caller."""
from __future__ import annotations

import os
import re
import threading
import time
from collections import deque
from types import TracebackType
from typing import Deque, Generator, Iterable, Iterator, Optional, Type, Union

from .answers import Checkpoint, Committed, Edge, Element, Explanation, Guard, Node, Refused, Verdict, causes_of, element_of, explanation_of, refused_of
from .dump import Dump
from .faults import Fault, Locked, Mismatch
from .files import Contents, compare_feed, read_store
from .operations import Operation, Transaction, line_of, transaction_of
from .program import Ended, Run, Sent, run_command

Path = Union[str, "os.PathLike[str]"]

# How long a writer that goes on waits for another run that has the store, in seconds.
PATIENCE = 60.0
_PAUSE = 0.05


class Store:
    """The store `name`, open for transactions until `close`, which `with` calls.

    feed: a file, or several, that get a line for each commit
    checkpoint_every: where so many commits stand behind the last checkpoint the next one is made, between two transactions: the process ends, the
        store is checkpointed, and the process is started again. The call that comes then waits for that whole start, which reads and judges the store.
        Where another run has the store, as one that reads it, the checkpoint is put off until so many commits more, and the writer goes on.
    anyway: takes a store that stepped back, and a feed whose last line isn't the store's last commit, as they are; a feed that is torn or ahead gets no
        line and is lost, which `close` tells

    Before the process starts the feeds are compared with the store. The store is locked as long as the process runs. Threads may share a Store. After a
    Fault the next call starts the process again.
    """

    def __init__(
        self, name: Path, *, feed: Union[Path, Iterable[Path]] = (), checkpoint_every: Optional[int] = None, anyway: bool = False
    ) -> None:
        if checkpoint_every is not None and checkpoint_every < 1:
            raise ValueError("checkpoint_every is 1 or more")
        # The process is started again later, maybe from another folder.
        self.name = os.path.abspath(name)
        self._feeds = [os.path.abspath(each) for each in ([feed] if isinstance(feed, (str, os.PathLike)) else feed)]
        self._every, self._anyway = checkpoint_every, anyway
        self._threshold = checkpoint_every or 0
        self._known = 0
        self._deadline = 0.0
        self._recovering = 0
        self._is_closed = False
        self._lock = threading.RLock()
        self._run: Optional[Run] = None
        self._begin()

    def __enter__(self) -> "Store":
        return self

    def __exit__(self, kind: Optional[Type[BaseException]], error: Optional[BaseException], trace: Optional[TracebackType]) -> None:
        self.close()

    def close(self) -> None:
        """Waits until all that was handed over is decided, and ends the process. Raises FeedLost where a feed failed."""
        with self._lock:
            self._is_closed = True
            self._finish()

    def apply(self, *operations: Operation, check: bool = False) -> int:
        """Has one transaction decided; gives the number of its commit, which is on the disk then, or raises Refused.

        check: asks `pgcheck apply` for the causes of a refusal, on the store as it is then, which reads it whole: there are none where another commit
        came between and the transaction would be accepted or refused otherwise by then, nor where `pgcheck` can't be run
        """
        verdict = self._verdict(self._put(transaction_of(operations)))
        if isinstance(verdict, Committed):
            return verdict.number
        raise self._explained(verdict) if check else verdict

    def apply_each(self, transactions: Iterable[Iterable[Operation]], *, ahead: int = 1_000) -> Iterator[Verdict]:
        """Has many transactions decided, each an iterable of operations, and gives their verdicts, in order, as they come: Committed or Refused.

        At most `ahead` are handed over whose verdicts weren't taken yet. What was handed over is decided, also where the loop is left: who wants to stop
        lets `transactions` end, or says `ahead=1`. What `transactions` raises is raised behind the verdicts of those before.
        """
        if ahead < 1:
            raise ValueError("ahead is 1 or more")
        return self._verdicts(iter(transactions), ahead)

    def commits(self) -> int:
        """How many commits the store has, read from its files."""
        with self._lock:
            is_ours = self._run is not None and self._run.status is None
            return read_store(self.name, locked=not is_ours).commits

    @staticmethod
    def load(name: Path, schema: str) -> Guard:
        """Makes the empty store `name` under a schema. A schema that is refused raises Refused."""
        return _guard_of(run_command(["load", os.fspath(name)], schema), "loaded")

    def evolve(self, schema: str) -> Guard:
        """Puts the store under another schema. Where the graph doesn't conform, or the schema is refused, Refused is raised and nothing is changed."""
        with self._lock:
            self._finish()
            return _guard_of(run_command(["evolve", self.name], schema), "evolved")

    def checkpoint(self) -> Checkpoint:
        """Writes the store whole into its other file. A feed that lacks commits is refused first, as at the start."""
        with self._lock:
            self._finish()
            self._look()
            return self._checkpoint()

    def explain(self, element: Union[Element, str]) -> Optional[Explanation]:
        """The types and key values of an element, as `n1`; None where it isn't there."""
        word = str(element_of(str(element)))
        with self._lock:
            self._finish()
            ended = run_command(["explain", self.name, word])
        if ended.status == 0:
            return explanation_of(ended.lines)
        if ended.status == 1 and ended.lines:
            return None
        raise ended.fault()

    def recover(self) -> Generator[Union[Node, Edge], None, None]:
        """Each node of the store and then each edge, as they come from the program. Until the last one was taken, or the generator is closed, the store
        can't be written."""
        with self._lock:
            self._finish()
            dump = Dump(self.name)
            self._recovering += 1
        try:
            yield from dump.elements()
        finally:
            dump.close()
            with self._lock:
                self._recovering -= 1

    def _explained(self, refused: Refused) -> Refused:
        """The same refusal with its causes."""
        try:
            ended = run_command(["apply", self.name], line_of(refused.transaction).decode("utf-8"), "pgcheck")
        except Fault:
            return refused
        return Refused(refused.number, refused.text, refused.transaction, causes_of(ended.lines, refused))

    def _put(self, transaction: Transaction) -> Sent:
        sent = Sent(transaction)
        with self._lock:
            try:
                self._ready().put(sent)
            except Fault as fault:
                fault.leaves((transaction,))
                raise
        return sent

    def _verdict(self, sent: Sent, error: Optional[Exception] = None) -> Verdict:
        """Waits for a verdict. Where the process ends before, a fault that was met already is raised rather than its own."""
        while sent.verdict is None:
            run = sent.run
            assert run is not None
            if not run.answers(sent):
                if isinstance(error, Fault):
                    raise error
                self._go_on(run)
        return sent.verdict

    def _verdicts(self, source: Iterator[Iterable[Operation]], ahead: int) -> Iterator[Verdict]:
        own: Deque[Sent] = deque()
        error: Optional[Exception] = None
        is_feeding = True
        while is_feeding or own:
            # Before a checkpoint all verdicts are given, so that what it raises hides none.
            while is_feeding and len(own) < ahead and not (own and self._may_be_due()):
                try:
                    given = next(source, None)
                    if given is None:
                        is_feeding = False
                    else:
                        own.append(self._put(transaction_of(given)))
                except Exception as caught:
                    is_feeding, error = False, caught
            if own:
                verdict = self._verdict(own[0], error)
                own.popleft()
                yield verdict
        if error is not None:
            raise error

    def _is_due(self) -> bool:
        return self._every is not None and self._run is not None and self._run.journal() >= self._threshold

    def _may_be_due(self) -> bool:
        return self._every is not None and self._run is not None and self._run.most_journal() >= self._threshold

    def _ready(self) -> Run:
        """A process that takes a transaction."""
        if self._is_closed:
            raise ValueError("the store is closed")
        if self._run is not None and self._run.status is not None and not self._run.is_closing:
            self._go_on(self._run)
        if self._run is not None and (self._run.is_closing or self._is_due()):
            self._finish()
        if self._run is None:
            self._deadline = time.monotonic() + PATIENCE
            self._begin()
        assert self._run is not None
        return self._run

    def _begin(self, handed: Iterable[Sent] = ()) -> None:
        """Starts the process, behind a checkpoint where one is due."""
        if self._recovering:
            raise RuntimeError("recover() is not at its end: take all elements, or close the generator")
        contents = self._look()
        if self._every is not None and contents.journal >= self._threshold:
            try:
                self._checkpoint()
            except Locked:
                self._threshold = contents.journal + self._every
            contents = self._look()
        run = Run(contents)
        run.start(["apply", self.name, *self._feeds], handed)
        self._run = run

    def _look(self) -> Contents:
        """What the files hold, where the store and its feeds fit together."""
        while True:
            try:
                contents = read_store(self.name)
                break
            except Locked:
                if time.monotonic() >= self._deadline:
                    raise
                time.sleep(_PAUSE)
        if not self._anyway:
            if contents.commits < self._known:
                text = f"{self.name}: commit {self._known} was acknowledged, and the store has {contents.commits}: it stepped back"
                raise Mismatch(None, text, (), contents.commits)
            for feed in self._feeds:
                compare_feed(feed, contents.commits)
        return contents

    def _go_on(self, run: Run) -> None:
        """Raises why a process ended by itself. Where it only found the store locked, behind one that was ended here, the next one gets what it was
        given."""
        with self._lock:
            if run.is_moved:
                return
            fault = run.fault()
            assert fault is not None
            if self._run is not run or not isinstance(fault, Locked) or time.monotonic() >= self._deadline:
                self._drop(run)
                raise fault
            time.sleep(_PAUSE)
            self._run = None
            try:
                self._begin(run.undecided())
            except Fault as other:
                other.leaves(fault.undecided)
                raise
            run.is_moved = True

    def _finish(self) -> None:
        """Ends the process behind all that was handed over, and raises what it says at its end."""
        run = self._run
        if run is not None:
            run.close()
            self._drop(run)
            fault = run.fault()
            if fault is not None:
                raise fault

    def _drop(self, run: Run) -> None:
        self._known = max(self._known, run.last)
        if self._run is run:
            self._run = None

    def _checkpoint(self) -> Checkpoint:
        ended = run_command(["checkpoint", self.name])
        found = re.fullmatch(r"checkpoint epoch=([0-9]+) commits=([0-9]+)", "".join(ended.lines))
        if ended.status != 0 or found is None:
            raise ended.fault()
        self._threshold = self._every or 0
        return Checkpoint(int(found[1]), int(found[2]))


def _guard_of(ended: Ended, word: str) -> Guard:
    """What `load` and `evolve` answer."""
    line = ended.lines[0] if ended.lines else ""
    found = re.fullmatch(word + r" types=([0-9]+) keys=([0-9]+)", line)
    if ended.status == 0 and found is not None:
        return Guard(int(found[1]), int(found[2]))
    if ended.status in (1, 3) and " refused " in line:
        raise refused_of(line.partition(" refused ")[2])
    raise ended.fault()
