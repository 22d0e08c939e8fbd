"""How many commits a store's two files have, and where a feed ends. Nothing is judged: the program does that."""
from __future__ import annotations

import fcntl
import json
import os
import stat
from typing import BinaryIO, List, NamedTuple, Optional

from .faults import Locked, Mismatch, fault_of

_WORDS = {b"PGSGRD1": 1, b"PGSGRD2": 2}
# The bytes before a record's payload, by the format.
_RECORD_HEADS = {1: 9, 2: 17}
_LAST_EPOCH, _MOST_BYTES = 2**24 - 1, 2**40
_LONGEST_FEED_LINE = 2_097_152


class Contents(NamedTuple):
    """How many commits a store has, and how many of them stand in the journal, behind the last checkpoint."""

    commits: int
    journal: int


class _Area:
    """One file of a store, walked from record to record, as docs/BYTES.md says."""

    def __init__(self, file: BinaryIO) -> None:
        self.before = self.journal = self.epoch = 0
        self.damaged: Optional[int] = None
        head = file.read(17)
        self.is_open = len(head) == 17 and head[0] == 1
        self.epoch = int.from_bytes(head[8:16], "big")
        self.is_store = self.is_open and head[1:8] in _WORDS and 1 <= self.epoch <= _LAST_EPOCH
        if self.is_store:
            self._walk(file, _RECORD_HEADS[_WORDS[head[1:8]]])

    def _walk(self, file: BinaryIO, head_size: int) -> None:
        at, record = 16, 0
        while True:
            file.seek(at)
            head = file.read(head_size + 9)
            if not head:
                # The gate behind a record is missing, so it isn't whole.
                self.damaged = record
                return
            if head[0] != 1:
                break
            record += 1
            if len(head) <= head_size or head_size == 17 and int.from_bytes(head[1:9], "big") != record:
                self.damaged = record
                return
            if head[head_size] == 2:
                self.before = int.from_bytes(head[head_size + 1:], "big")
            elif head[head_size] == 3:
                self.journal += 1
            at += head_size + int.from_bytes(head[head_size - 8:head_size], "big")
            if at > _MOST_BYTES:
                self.damaged = record
                return
        if record == 0:
            self.damaged = 1


def _opened(path: str) -> Optional[BinaryIO]:
    """A store's file, if it is there and regular."""
    try:
        # A pipe would wait for its writer.
        file = os.fdopen(os.open(path, os.O_RDONLY | os.O_NONBLOCK | os.O_CLOEXEC), "rb")
    except FileNotFoundError:
        return None
    if stat.S_ISREG(os.fstat(file.fileno()).st_mode):
        return file
    file.close()
    return None


def read_store(name: str, locked: bool = True) -> Contents:
    """What the files of a store hold, read under their shared locks. Without them while a process of our own writes: a record counts from the moment
    when it is whole on the disk."""
    files: List[BinaryIO] = []
    try:
        for path in (f"{name}.a", f"{name}.b"):
            file = _opened(path)
            if file is None:
                continue
            files.append(file)
            if locked:
                try:
                    fcntl.flock(file, fcntl.LOCK_SH | fcntl.LOCK_NB)
                except BlockingIOError:
                    raise Locked(5, f"pgguard: {path}: is locked by another run") from None
        areas = [_Area(file) for file in files]
    finally:
        for file in files:
            file.close()
    stores = [area for area in areas if area.is_store]
    if not stores:
        foreign = any(area.is_open for area in areas)
        raise fault_of(4, "store refused 32 another program's file" if foreign else "store refused 30 no store")
    chosen = max(stores, key=lambda area: area.epoch)
    if chosen.damaged is not None:
        raise fault_of(4, f"store refused 33 record {chosen.damaged} is damaged")
    return Contents(chosen.before + chosen.journal, chosen.journal)


def compare_feed(path: str, commits: int) -> None:
    """Refuses a feed whose next line would not follow its last one. A feed that is empty, or no file, fits each store."""
    file = _opened(path)
    if file is None:
        return
    with file:
        size = file.seek(0, os.SEEK_END)
        start = max(0, size - _LONGEST_FEED_LINE - 2)
        file.seek(start)
        tail = file.read()
    if not tail:
        return
    if not tail.endswith(b"\n"):
        raise Mismatch(None, f"{path}: its last line is torn: mend it before the next commit is put behind it", (), commits)
    try:
        last = json.loads(tail[:-1].rpartition(b"\n")[2])["commit"]
        behind = commits - int(last)
    except (ValueError, KeyError, TypeError):
        raise Mismatch(None, f"{path}: its last line is no commit", (), commits) from None
    if behind > 0:
        raise Mismatch(None, f"{path}: its last commit is {last}, and the store has {commits}: `tools/journal-to-feed` writes those between", (), commits)
    if behind < 0:
        raise Mismatch(None, f"{path}: its last commit is {last}, and the store has {commits}: it is another store's, or the store stepped back", (), commits)
