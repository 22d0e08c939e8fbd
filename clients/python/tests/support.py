"""What the tests share: a folder for stores, a schema, and programs of their own."""
import faulthandler
import os
import subprocess
import sys
import tempfile
import time
import unittest
from pathlib import Path

PACKAGE = Path(__file__).resolve().parent.parent
sys.path.insert(0, str(PACKAGE))

import pgguard  # noqa: E402
from pgguard.program import executable  # noqa: E402

# A test that hangs shows where it does.
faulthandler.dump_traceback_later(900, exit=True)

SCHEMA = """
CREATE GRAPH TYPE people STRICT {
  (person: Person {id INT, OPTIONAL name STRING, OPTIONAL born DATE, OPTIONAL member BOOL, OPTIONAL note STRING}),
  (:person)-[knowing: knows {OPTIONAL since DATE}]->(:person),
  FOR (p:person) IDENTIFIER p.id,
  FOR (p:person) SINGLETON q WITHIN (p)-[:knows]->(q),
  FOR (p:person) EXCLUSIVE p.note, p.name
};
"""


def person(number, identity=None):
    """The operation that adds a person."""
    return pgguard.add_node(number, "Person", id=number if identity is None else identity)


class StoreTest(unittest.TestCase):
    """A test in a folder of its own, where stores are made; in memory where the system has such a folder, since each commit is synced twice."""

    def setUp(self):
        memory = "/dev/shm"
        self.folder = tempfile.TemporaryDirectory(dir=memory if os.access(memory, os.W_OK) else None)
        self.addCleanup(self.folder.cleanup)

    def at(self, name):
        return os.path.join(self.folder.name, name)

    def made(self, name):
        """The path of a new store."""
        pgguard.Store.load(self.at(name), SCHEMA)
        return self.at(name)

    def numbers(self, store):
        """The numbers of a store's nodes."""
        return [element.number for element in store.recover() if isinstance(element, pgguard.Node)]

    def opened(self, *words, **named):
        """A store that a run which is about to end may still have."""
        end = time.monotonic() + 30
        while True:
            try:
                return pgguard.Store(*words, **named)
            except pgguard.Locked:
                if time.monotonic() >= end:
                    raise
                time.sleep(0.01)

    def client(self, text, *words):
        """Starts a program of Python over the client, as the first process of a group."""
        head = f"import sys\nsys.path.insert(0, {str(PACKAGE)!r})\nfrom pgguard import *\n"
        # Without a buffer each line that was read is gone from the pipe, and no other.
        streams = {"stdout": subprocess.PIPE, "stderr": subprocess.PIPE, "bufsize": 0}
        process = subprocess.Popen([sys.executable, "-c", head + text, *words], start_new_session=True, **streams)
        self.addCleanup(process.communicate)
        return process


def process_of(store):
    """The process of `apply` that a store has now."""
    return store._run._process


__all__ = ["PACKAGE", "SCHEMA", "StoreTest", "executable", "person", "pgguard", "process_of"]
