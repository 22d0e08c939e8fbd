"""What a kill, a lock, a damage or a lost feed leave, and how one goes on."""
import fcntl
import os
import random
import shutil
import signal
import threading
import time
from unittest import mock

from support import SCHEMA, StoreTest, person, pgguard, process_of
from pgguard import Committed, Damaged, Fault, FeedLost, Locked, Mismatch, NoStore, Store
from pgguard.files import read_store

# Adds persons from a number on, and says each acknowledged commit.
WRITER = """
import os
with Store(sys.argv[1]) as store:
    try:
        given = ([add_node(number, "Person", id=number)] for number in range(int(sys.argv[2]), 1_000_000))
        for verdict in store.apply_each(given, ahead=int(sys.argv[3])):
            os.write(1, b"%d\\n" % verdict.number)
    except KeyboardInterrupt:
        os.write(1, b"interrupted\\n")
os.write(1, b"closed %d\\n" % store.commits())
"""


class Kills(StoreTest):
    def test_of_the_program(self):
        for seed in range(8):
            with self.subTest(seed=seed):
                self.kill_the_program(seed)

    def kill_the_program(self, seed):
        drawn = random.Random(seed)
        given, known = [], []

        def transactions():
            for number in range(1, 1_000_000):
                # Some are refused.
                given.append((person(number, identity=0 if drawn.random() < 0.3 else number),))
                yield given[-1]

        with Store(self.made(f"killed{seed}")) as store:
            threading.Timer(drawn.uniform(0.005, 0.15), process_of(store).kill).start()
            with self.assertRaises(Fault) as caught:
                for verdict in store.apply_each(transactions(), ahead=drawn.choice([1, 10, 256])):
                    self.assertEqual(verdict.transaction, given[len(known)])
                    known.append(verdict)
            fault = caught.exception
            self.assertEqual(fault.status, -signal.SIGKILL)
            self.assertEqual(list(fault.undecided), given[len(known):])
            committed = [verdict.transaction for verdict in known if isinstance(verdict, Committed)]
            self.assertEqual(fault.commits, len(committed))
            went_in = store.commits() - fault.commits
            self.assertIn(went_in, (0, 1))
            stored = committed + list(fault.undecided[:went_in])
            self.assertEqual(self.numbers(store), [element_number(transaction) for transaction in stored])
            # What isn't in goes on with the same store.
            for verdict in store.apply_each(fault.undecided[went_in:]):
                if isinstance(verdict, Committed):
                    stored.append(verdict.transaction)
            self.assertEqual(self.numbers(store), [element_number(transaction) for transaction in stored])

    def test_of_the_client(self):
        name = self.made("people")
        drawn = random.Random(1)
        first = 1
        for ahead in (1, 256, 20, 256):
            with self.subTest(ahead=ahead, first=first):
                client = self.client(WRITER, name, str(first), str(ahead))
                client.stdout.readline()
                time.sleep(drawn.uniform(0, 0.15))
                os.killpg(client.pid, signal.SIGKILL)
                acknowledged = [int(line) for line in client.communicate()[0].splitlines(keepends=True) if line.endswith(b"\n")]
                with self.opened(name) as store:
                    commits = store.commits()
                    # What was handed over may be in, behind the last that was told.
                    self.assertIn(commits - (acknowledged or [first])[-1], range(ahead + 1))
                    self.assertEqual(self.numbers(store), list(range(1, commits + 1)))
                first = commits + 1

    def test_by_control_c(self):
        for ahead in (1, 256):
            with self.subTest(ahead=ahead):
                name = self.made(f"people{ahead}")
                client = self.client(WRITER, name, "1", str(ahead))
                for _ in range(50):
                    client.stdout.readline()
                os.killpg(client.pid, signal.SIGINT)
                put, told = client.communicate(timeout=30)
                self.assertEqual((client.returncode, told), (0, b""))
                *acknowledged, interrupted, closed = put.decode().splitlines()
                self.assertEqual(interrupted, "interrupted")
                # What was handed over is decided too before the store is closed.
                commits = int(closed.split()[1])
                self.assertIn(commits - int((acknowledged or [50])[-1]), range(ahead + 1))
                with Store(name) as store:
                    self.assertEqual(self.numbers(store), list(range(1, commits + 1)))

    def test_exceptions_in_the_middle_of_a_call(self):
        def interrupt(*_):
            raise TimeoutError

        self.addCleanup(signal.signal, signal.SIGALRM, signal.signal(signal.SIGALRM, interrupt))
        drawn = random.Random(2)
        found = {}
        with Store(self.made("people")) as store:
            for number in range(1, 400):
                try:
                    try:
                        signal.setitimer(signal.ITIMER_REAL, drawn.uniform(0.00002, 0.0008))
                        found[number] = store.apply(person(number, identity=1 if number % 7 == 0 else number))
                    finally:
                        signal.setitimer(signal.ITIMER_REAL, 0)
                except (TimeoutError, pgguard.Refused):
                    pass
            last = store.apply(person(1_000))
            numbers = self.numbers(store)
        # The verdicts are those of their transactions, and none is lost.
        self.assertEqual(len(numbers), last)
        self.assertEqual({number: numbers[commit - 1] for number, commit in found.items()}, {number: number for number in found})
        self.assertIn(len(found), range(5, 395))

    def test_while_nothing_is_undecided(self):
        with Store(self.made("people")) as store:
            store.apply(person(1))
            process = process_of(store)
            process.terminate()
            process.wait()
            with self.assertRaises(Fault) as caught:
                store.apply(person(2))
            self.assertEqual((caught.exception.status, caught.exception.undecided), (-signal.SIGTERM, ((person(2),),)))
            self.assertEqual(store.commits() - caught.exception.commits, 0)
            self.assertEqual(store.apply(person(2)), 2)
            process_of(store).kill()
            with self.assertRaises(Fault):
                store.close()

    def test_file_that_is_taken_away(self):
        name = self.made("people")
        with Store(name) as store:
            store.apply(person(1))
            os.rename(f"{name}.a", f"{name}.away")
            with self.assertRaisesRegex(Fault, "people.a: was replaced or removed, ended with status 5, 1 undecided") as caught:
                store.apply(person(2))
            os.rename(f"{name}.away", f"{name}.a")
            # The name is looked at behind the last sync of a commit, so this one is in the file that was away.
            self.assertEqual(store.commits() - caught.exception.commits, 1)
            self.assertEqual(store.apply(person(3)), 3)


def element_number(transaction):
    """The number of the person that a transaction adds."""
    return int(transaction[0].text.split(":")[1].split(",")[0])


class Stores(StoreTest):
    def test_no_store(self):
        with self.assertRaises(NoStore) as caught:
            Store(self.at("none"))
        self.assertEqual((caught.exception.status, caught.exception.said), (4, "store refused 30 no store"))

    def test_another_programs_file(self):
        for ending in "ab":
            with open(self.at(f"other.{ending}"), "wb") as file:
                file.write(b"\x01" * 40)
        with self.assertRaisesRegex(Fault, "32 another program's file"):
            Store(self.at("other"))

    def test_a_damaged_record(self):
        name = self.made("people")
        with Store(name) as store:
            store.apply(person(1))
        with open(f"{name}.a", "r+b") as file:
            whole = file.read()
            file.seek(0)
            file.write(whole.replace(b"\x02id", b"\x02ix"))
        # The files are walked, and the program reads them.
        with Store(name) as store, self.assertRaises(Damaged) as caught:
            store.apply(person(2))
        self.assertEqual((caught.exception.status, caught.exception.undecided), (4, ((person(2),),)))
        os.truncate(f"{name}.a", len(whole) - 3)
        with self.assertRaisesRegex(Damaged, "33 record 2 is damaged"):
            Store(name)

    def test_a_second_writer(self):
        name = self.made("people")
        with Store(name) as store:
            store.apply(person(1))
            with self.assertRaises(Locked):
                Store(name)
            self.assertEqual(store.apply(person(2)), 2)
        with Store(name) as store:
            self.assertEqual(store.apply(person(3)), 3)

    def test_a_reader_at_the_start(self):
        name = self.made("people")
        with open(f"{name}.a", "rb") as file:
            fcntl.flock(file, fcntl.LOCK_SH)
            store = Store(name)
            with self.assertRaises(Locked) as caught:
                list(store.apply_each([[person(1)], [person(2)]]))
            self.assertEqual(caught.exception.undecided, ((person(1),), (person(2),)))
        self.assertEqual(store.apply(person(1)), 1)
        store.close()

    def test_a_store_that_steps_back(self):
        name = self.made("people")
        with Store(name, anyway=False) as store:
            store.apply(person(1))
            shutil.copy(f"{name}.a", f"{name}.old")
            store.apply(person(2))
            store.checkpoint()
            shutil.copy(f"{name}.old", f"{name}.a")
            os.truncate(f"{name}.b", 0)
            with self.assertRaisesRegex(Mismatch, "commit 2 was acknowledged, and the store has 1"):
                store.apply(person(2))
        with Store(name) as store:
            self.assertEqual(store.apply(person(2)), 2)


class Feeds(StoreTest):
    def setUp(self):
        super().setUp()
        self.name, self.feed = self.made("people"), self.at("feed")
        with Store(self.name, feed=self.feed) as store:
            for number in range(1, 4):
                store.apply(person(number))

    def mismatch(self, text, is_lost=False):
        """The store is refused beside its feed, and taken where it is said; the feed gets no line then where `apply` writes none behind it."""
        with self.assertRaisesRegex(Mismatch, text):
            Store(self.name, feed=self.feed)
        before = os.path.getsize(self.feed)
        store = Store(self.name, feed=self.feed, anyway=True)
        store.apply(person(store.commits() + 1))
        if is_lost:
            with self.assertRaises(FeedLost):
                store.close()
        else:
            store.close()
        self.assertEqual(os.path.getsize(self.feed) == before, is_lost)

    def test_whole_and_empty_ones(self):
        for feed in (self.feed, self.at("new")):
            with Store(self.name, feed=feed) as store:
                store.apply(person(store.commits() + 1))
        self.mismatch("feed: its last commit is 4, and the store has 5: `tools/journal-to-feed` writes those between")

    def test_a_torn_one(self):
        os.truncate(self.feed, os.path.getsize(self.feed) - 1)
        self.mismatch("feed: its last line is torn", is_lost=True)

    def test_one_that_is_ahead(self):
        with open(self.feed, "ab") as file:
            file.write(b'{"commit":4,"ops":[]}\n')
        self.mismatch("feed: its last commit is 4, and the store has 3: it is another store's, or the store stepped back", is_lost=True)

    def test_one_of_something_else(self):
        for number, text in enumerate((b"x\n", b"{}\n", b"[]\n", b'{"commit":"x"}\n', b"\n", b"\xff\n", b"1" * 3_000_000 + b"\n")):
            other = self.at(f"other{number}")
            with open(other, "wb") as file:
                file.write(text)
            with self.subTest(text=text[:20]), self.assertRaisesRegex(Mismatch, "its last line is no commit"):
                Store(self.name, feed=other)

    def test_one_that_dies(self):
        with Store(self.name, feed="/dev/full", checkpoint_every=5) as store:
            store.apply(person(4))
            store.apply(person(5))
            with self.assertRaises(FeedLost) as caught:
                store.apply(person(6))
            self.assertEqual((caught.exception.said, caught.exception.undecided), ("feeds lost=1", ((person(6),),)))
            # No checkpoint was made.
            self.assertEqual(read_store(self.name), (5, 5))

    def test_one_that_dies_before_a_checkpoint(self):
        verdicts = []
        with Store(self.name, feed=[self.feed, self.feed], checkpoint_every=5) as store:
            with self.assertRaises(FeedLost):
                for verdict in store.apply_each([person(number)] for number in range(4, 100)):
                    verdicts.append(verdict.number)
            commits = store.commits()
            self.assertEqual(verdicts, list(range(4, commits + 1)))
            self.assertEqual(read_store(self.name).journal, commits)
            store.apply(person(200))
            with self.assertRaises(FeedLost):
                store.checkpoint()
            self.assertEqual(read_store(self.name).journal, 1)

    def test_one_that_dies_is_told_at_the_close(self):
        with self.assertRaises(FeedLost):
            with Store(self.name, feed="/dev/full") as store:
                self.assertEqual(store.apply(person(4)), 4)
        with self.assertRaises(FeedLost):
            with Store(self.name, feed="/dev/full") as store:
                store.apply(person(5))
                raise KeyError("in the body")

    def test_a_checkpoint_beside_a_feed_that_lacks_commits(self):
        with Store(self.name) as store:
            store.apply(person(4))
        with Store(self.name, feed=self.feed, anyway=True) as store:
            store.checkpoint()
        with self.assertRaises(Mismatch):
            Store(self.name, feed=self.feed).checkpoint()


class Checkpoints(StoreTest):
    def test_between_transactions(self):
        name = self.made("people")
        with Store(name, feed=self.at("feed"), checkpoint_every=100) as store:
            for number in range(1, 251):
                self.assertEqual(store.apply(person(number)), number)
            self.assertEqual(store.checkpoint(), (4, 250))
            for number, verdict in enumerate(store.apply_each([person(number)] for number in range(251, 1_001)), 251):
                self.assertEqual(verdict.number, number)
        self.assertEqual(read_store(name), (1_000, 50))
        with open(self.at("feed"), "rb") as feed:
            self.assertEqual(len(feed.readlines()), 1_000)

    def test_at_the_start_where_one_is_due(self):
        name = self.made("people")
        with Store(name) as store:
            list(store.apply_each([person(number)] for number in range(1, 11)))
        with Store(name, checkpoint_every=10) as store:
            self.assertEqual(read_store(name, locked=False), (10, 0))
            self.assertEqual(store.apply(person(11)), 11)

    def test_that_is_put_off(self):
        name = self.made("people")
        with Store(name, checkpoint_every=10) as store:
            for number in range(1, 11):
                store.apply(person(number))
            made = store._checkpoint

            def checkpoint():
                # A reader is there first, and stays beyond the next start.
                file = open(f"{name}.a", "rb")
                fcntl.flock(file, fcntl.LOCK_SH)
                threading.Timer(0.5, file.close).start()
                return made()

            with mock.patch.object(store, "_checkpoint", checkpoint):
                verdicts = store.apply_each([person(number)] for number in range(11, 16))
                self.assertEqual([verdict.number for verdict in verdicts], list(range(11, 16)))
            self.assertEqual(read_store(name, locked=False), (15, 15))
            for number in range(16, 22):
                self.assertEqual(store.apply(person(number)), number)
            self.assertEqual(read_store(name, locked=False), (21, 1))

    def test_that_is_put_off_for_too_long(self):
        name = self.made("people")
        with Store(name) as store, mock.patch("pgguard.store.PATIENCE", 0.2), open(f"{name}.a", "rb") as file:
            store.checkpoint()
            fcntl.flock(file, fcntl.LOCK_SH)
            with self.assertRaises(Locked) as caught:
                list(store.apply_each([[person(1)], [person(2)]]))
            self.assertEqual(caught.exception.undecided, ((person(1),), (person(2),)))
