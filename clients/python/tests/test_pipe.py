"""Many transactions through one process: their order, full pipes, readers of any pace, threads, two stores."""
import itertools
import threading
import time

from support import StoreTest, person, pgguard
from pgguard import Committed, Refused, Store, add_node


class Pipe(StoreTest):
    def test_a_hundred_thousand_transactions(self):
        # Each tenth one is refused.
        given = ([person(number if number % 10 else 1)] for number in range(1, 100_001))
        committed = refused = 0
        with Store(self.made("people")) as store:
            for verdict in store.apply_each(given, ahead=5_000):
                if isinstance(verdict, Committed):
                    committed += 1
                    self.assertEqual(verdict.number, committed)
                else:
                    refused += 1
                    self.assertEqual((committed + refused) % 10, 0)
            self.assertEqual((committed, refused, store.commits()), (90_000, 10_000, 90_000))

    def test_full_pipes(self):
        # Each line, and each refusal of one, is longer than a pipe holds.
        note = "\x01" * 60_000
        wide = lambda number: [add_node(number, "Person", id=number, name=note, note=note)]
        with Store(self.made("people")) as store:
            verdicts = list(store.apply_each(map(wide, range(1, 30))))
            self.assertIsInstance(verdicts[0], Committed)
            for number, verdict in enumerate(verdicts[1:], 2):
                self.assertEqual((verdict.number, verdict.tuples), (29, ((note, note),)))
                self.assertEqual([str(element) for element in verdict.elements], ["n1", f"n{number}"])

    def test_a_slow_reader(self):
        taken = itertools.count(1)
        with Store(self.made("people")) as store:
            for number, verdict in enumerate(store.apply_each(([person(next(taken))] for _ in range(8_000)), ahead=3_000), 1):
                self.assertEqual(verdict.number, number)
                if number % 2_000 == 1:
                    time.sleep(0.3)
            self.assertEqual((number, next(taken)), (8_000, 8_001))

    def test_no_more_are_taken_than_ahead(self):
        for ahead in (1, 7):
            taken = []

            def given():
                for number in range(1, 101):
                    taken.append(number)
                    yield [person(number)]

            with self.subTest(ahead=ahead), Store(self.made(f"people{ahead}")) as store:
                for number, verdict in enumerate(store.apply_each(given(), ahead=ahead), 1):
                    self.assertEqual(verdict.number, number)
                    self.assertLess(len(taken) - number, ahead)
                    if number == 50:
                        break
                # What was handed over is decided, though nobody takes the verdicts.
                self.assertEqual(store.apply(person(1_000)), len(taken) + 1)

    def test_calls_inside_the_loop(self):
        with Store(self.made("people"), checkpoint_every=50) as store:
            for number, verdict in enumerate(store.apply_each([person(number)] for number in range(1, 201)), 1):
                self.assertEqual(verdict.transaction, (person(number),))
                if number % 20 == 0:
                    store.apply(person(1_000 + number))
                if number == 100:
                    store.checkpoint()
            self.assertEqual(store.commits(), 210)

    def test_what_the_transactions_raise_comes_behind_the_verdicts(self):
        def given():
            yield from ([person(number)] for number in range(1, 11))
            raise KeyError("the end")

        with Store(self.made("people")) as store:
            for transactions, kind in ((given(), KeyError), ([[person(20)], [person(21), None], [person(22)]], TypeError)):
                verdicts = store.apply_each(transactions)
                found = []
                with self.assertRaises(kind):
                    for verdict in verdicts:
                        found.append(verdict.number)
            self.assertEqual(found, [11])
            self.assertEqual(store.commits(), 11)
            with self.assertRaises(ValueError):
                store.apply_each([], ahead=0)

    def test_threads(self):
        with Store(self.made("people"), checkpoint_every=300) as store:
            found = []

            def work(first):
                for number in range(first, first + 100):
                    found.append(store.apply(person(number)))

            threads = [threading.Thread(target=work, args=(1_000 * number,)) for number in range(1, 9)]
            for thread in threads:
                thread.start()
            for thread in threads:
                thread.join()
            self.assertEqual(sorted(found), list(range(1, 801)))

    def test_two_stores(self):
        one, two = Store(self.made("one")), Store(self.made("two"))
        pairs = zip(one.apply_each([person(number)] for number in range(1, 501)), two.apply_each([person(number)] for number in range(1, 501)))
        for number, (first, second) in enumerate(pairs, 1):
            self.assertEqual((first.number, second.number), (number, number))
        # The process of the one ends, though the other was started behind it.
        one.close()
        self.assertEqual(two.apply(person(1_000)), 501)
        with Store(self.at("one")) as again:
            self.assertEqual(again.apply(person(1_000)), 501)
        two.close()
