"""Files that are written beside and then named, so that none is ever there half."""
import fcntl
import os
import stat
from graph_lines import Fault


def sync_folder(path):
    folder = os.open(os.path.dirname(path) or ".", os.O_RDONLY | os.O_DIRECTORY)
    try:
        os.fsync(folder)
    finally:
        os.close(folder)


def lock(opened, name):
    try:
        fcntl.flock(opened, fcntl.LOCK_EX | fcntl.LOCK_NB)
    except BlockingIOError:
        raise Fault(name, "is locked by another run") from None


def is_at(opened, path):
    """Whether an open file still has this name: another run may have named it otherwise before its lock was free."""
    try:
        return os.path.samestat(os.fstat(opened), os.stat(path))
    except FileNotFoundError:
        return False


def opened_beside(path):
    """An empty file beside another, open and locked, and its path. What a run that was killed left there is taken for it."""
    beside = path + ".new"
    while True:
        opened = os.open(beside, os.O_RDWR | os.O_CREAT | os.O_NOFOLLOW, 0o600)
        lock(opened, beside)
        if is_at(opened, beside):
            os.ftruncate(opened, 0)
            return opened, beside
        os.close(opened)


class Beside:
    """A file for its owner alone, written under another name; `done` gives it its own, in place of what stands there. A pipe or a device is written as it
    is. Where no path is named, nothing is kept."""

    def __init__(self, path):
        self.path, self.beside, self.file = path and os.path.realpath(path), None, None
        if path and os.path.exists(path) and not stat.S_ISREG(os.stat(path).st_mode):
            self.file = open(path, "wb")
        elif path:
            opened, self.beside = opened_beside(self.path)
            self.file = open(opened, "wb")

    def write(self, line):
        if self.file:
            self.file.write(line)

    def done(self):
        if self.file:
            self.file.flush()
            if self.beside:
                os.fsync(self.file.fileno())
                os.replace(self.beside, self.path)
                sync_folder(self.path)
            self.file.close()
            self.file = None

    def __enter__(self):
        return self

    def __exit__(self, *_):
        if self.file:
            if self.beside:
                os.unlink(self.beside)
            self.file.close()
