"""The processes of pgguard: one that ends by itself, and one of `apply` that is fed and read."""
from __future__ import annotations

import os
import queue
import re
import shutil
import subprocess
import tempfile
import threading
from collections import deque
from pathlib import Path
from typing import IO, Any, Deque, Iterable, List, NamedTuple, Optional, Sequence, Tuple

from .answers import Committed, Verdict, refused_of
from .faults import Fault, FeedLost, fault_of
from .files import Contents
from .operations import Transaction, line_of

# Seconds until a waiter looks again by itself.
_LONGEST_WAIT = 0.5
_VERDICT = re.compile(r"([0-9]+) (committed|refused) (.*)")


def executable(program: str = "pgguard") -> str:
    """What PGGUARD, or PGCHECK for `pgcheck`, names; else the launcher of the checkout that this file stands in; else the program on the path."""
    given = os.environ.get(program.upper())
    if given:
        return given
    package = Path(__file__).resolve().parent
    if package.parts[-3:-1] == ("clients", "python"):
        launcher = package.parents[2] / program
        if launcher.is_file():
            return str(launcher)
    found = shutil.which(program)
    if found is None:
        raise FileNotFoundError(f"{program} isn't on the path: {program.upper()} may name its executable")
    return found


def start(words: Sequence[str], program: str = "pgguard", **streams: Any) -> "subprocess.Popen[bytes]":
    """Starts a program. A terminal's Ctrl-C doesn't reach it, so what it was given is decided; and a limit on the size of files is a fault of a write
    and not its end, since the signal of that limit stays ignored, as Python ignores it."""
    return subprocess.Popen([executable(program), *words], start_new_session=True, restore_signals=False, **streams)


def last_line(told: IO[bytes]) -> str:
    """The last line of a file."""
    size = told.seek(0, os.SEEK_END)
    told.seek(max(0, size - 65_536))
    lines = told.read().decode("utf-8", "replace").splitlines()
    return lines[-1] if lines else ""


class Ended(NamedTuple):
    """How a process ended: its status, its lines, and the last line on standard error."""

    status: int
    lines: List[str]
    told: str

    def fault(self) -> Fault:
        refusal = [line for line in self.lines[:1] if " refused " in line]
        return fault_of(self.status, "".join(refusal) or self.told)


def run_command(words: Sequence[str], text: Optional[str] = None, program: str = "pgguard") -> Ended:
    """Runs a program to its end on a text."""
    given = b"" if text is None else text.encode("utf-8")
    with start(words, program, stdin=subprocess.PIPE, stdout=subprocess.PIPE, stderr=subprocess.PIPE) as process:
        try:
            put, told = process.communicate(given)
        except BaseException:
            process.kill()
            raise
    lines = told.decode("utf-8", "replace").splitlines()
    return Ended(process.returncode, put.decode("utf-8").split("\n")[:-1], lines[-1] if lines else "")


def held_lock() -> threading.Lock:
    """A lock that another thread releases once. A condition would be left in between by an exception in its waiter, as that of Ctrl-C."""
    lock = threading.Lock()
    lock.acquire()
    return lock


class Sent:
    """A transaction that was handed over, the process that got it, and the verdict, once it came."""

    __slots__ = ("transaction", "run", "verdict", "signal")

    def __init__(self, transaction: Transaction) -> None:
        self.transaction = transaction
        self.run: Optional[Run] = None
        self.verdict: Optional[Verdict] = None
        self.signal: threading.Lock


class Run:
    """One process of `apply`.

    One thread writes to it and one reads from it, so neither pipe is ever left full, and an exception in the caller's thread, as that of Ctrl-C, takes no
    half line and loses no verdict. What the caller's thread hands over is one step of a queue.
    """

    def __init__(self, contents: Contents) -> None:
        self.contents = contents
        self.handed = self.answered = self.committed = self.feeds_lost = 0
        self.last = contents.commits
        self.is_closing = self.is_moved = False
        self.status: Optional[int] = None
        self.said = ""
        self._queue: "queue.SimpleQueue[Optional[Sent]]" = queue.SimpleQueue()
        self._unanswered: Deque[Sent] = deque()
        self._ended = held_lock()
        self._told = tempfile.TemporaryFile()
        self._process: Optional["subprocess.Popen[bytes]"] = None
        self._writer = threading.Thread(target=self._write, daemon=True)
        self._reader = threading.Thread(target=self._read, daemon=True)

    def start(self, words: Sequence[str], handed: Iterable[Sent] = ()) -> None:
        """Starts the process, and hands over what another one left."""
        try:
            self._process = start(words, stdin=subprocess.PIPE, stdout=subprocess.PIPE, stderr=self._told)
            self._writer.start()
            self._reader.start()
            for sent in handed:
                self.put(sent)
        except BaseException:
            # It would keep the store locked.
            if self._process is not None:
                self._process.kill()
            raise

    def put(self, sent: Sent) -> None:
        """Hands a transaction over."""
        sent.run, sent.signal = self, held_lock()
        self.handed += 1
        self._queue.put(sent)

    def answers(self, sent: Sent) -> bool:
        """Waits for a verdict or for the end of the process; says whether the verdict came."""
        while sent.verdict is None and self.status is None:
            # What was handed over just before the end gets no signal.
            sent.signal.acquire(timeout=_LONGEST_WAIT)
        return sent.verdict is not None

    def close(self) -> None:
        """Ends the process behind what was handed over, and waits for it."""
        self.is_closing = True
        self._queue.put(None)
        while self.status is None:
            self._ended.acquire(timeout=_LONGEST_WAIT)

    def journal(self) -> int:
        """How many commits stand behind the last checkpoint, by the lines that came."""
        return self.contents.journal + self.committed

    def most_journal(self) -> int:
        """How many will stand there, where all is committed that was handed over."""
        return self.contents.journal + self.handed - (self.answered - self.committed)

    def undecided(self) -> List[Sent]:
        """What has no verdict, in order, once the process has ended."""
        while True:
            try:
                sent = self._queue.get_nowait()
            except queue.Empty:
                return list(self._unanswered)
            if sent is not None:
                self._unanswered.append(sent)

    def fault(self) -> Optional[Fault]:
        """Why the process ended, unless it was told to and all is decided."""
        undecided: Tuple[Transaction, ...] = tuple(sent.transaction for sent in self.undecided())
        if self.status in (0, 1) and self.is_closing and not undecided and not self.said:
            return FeedLost(self.status, f"feeds lost={self.feeds_lost}", (), self.last) if self.feeds_lost else None
        return fault_of(self.status or 0, self.said, undecided, self.last)

    def _write(self) -> None:
        assert self._process is not None and self._process.stdin is not None
        stdin = self._process.stdin
        try:
            while True:
                sent = self._queue.get()
                if sent is None:
                    break
                self._unanswered.append(sent)
                stdin.write(line_of(sent.transaction))
                if self._queue.empty():
                    stdin.flush()
        except OSError:
            # The process has ended; the reader finds out why.
            pass
        try:
            stdin.close()
        except OSError:
            pass

    def _read(self) -> None:
        assert self._process is not None and self._process.stdout is not None
        stdout = self._process.stdout
        try:
            for line in stdout:
                # A line that was cut by the end of the process is no answer.
                if line.endswith(b"\n") and not self._take(line[:-1].decode("utf-8", "replace")):
                    raise ValueError(line)
        except Exception as error:
            # Whatever it is, the caller mustn't wait for ever.
            self.said = self.said or repr(error)
            self._process.kill()
        stdout.close()
        status = self._process.wait()
        self._queue.put(None)
        self._writer.join()
        with self._told:
            if status not in (0, 1) and not self.said:
                self.said = last_line(self._told)
        left = self.undecided()
        self.status = status
        for sent in left:
            sent.signal.release()
        self._ended.release()

    def _take(self, line: str) -> bool:
        """Takes a whole line; says whether it is one that `apply` prints here."""
        found = _VERDICT.fullmatch(line)
        if found is not None and self._unanswered and int(found[1]) == self.answered + 1:
            sent = self._unanswered[0]
            verdict: Verdict
            if found[2] == "committed":
                verdict = Committed(int(found[3]), sent.transaction)
                self.last = verdict.number
                self.committed += 1
            else:
                verdict = refused_of(found[3], sent.transaction)
            self._unanswered.popleft()
            self.answered += 1
            sent.verdict = verdict
            sent.signal.release()
            return True
        if line.startswith("feeds lost="):
            self.feeds_lost = int(line[11:])
            return True
        self.said = line[:1000]
        return line.startswith(("store refused ", "schema refused ", "words refused "))
