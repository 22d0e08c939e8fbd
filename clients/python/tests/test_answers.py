"""The texts of refusals, taken apart."""
import datetime
import pickle
import unittest

from support import pgguard
from pgguard.answers import Element, element_of, explanation_of, refused_of
from pgguard.faults import fault_of

N1, N2, E1 = Element("node", 1), Element("node", 2), Element("edge", 1)


class Answers(unittest.TestCase):
    def test_each_refusal(self):
        rows = {
            "20 line is not a transaction": (None, None, (), ()),
            "21 line is longer than 1048576 bytes": (None, None, (), ()),
            "22 10001 operations, at most 10000": (None, None, (), ()),
            "23 op 3: n1 still has edge e1": (None, 3, (N1, E1), ()),
            "23 op 12: no edge e1": (None, 12, (E1,), ()),
            "24 1000001 elements, at most 1000000": (None, None, (), ()),
            "25 node n1 fits no type": (None, None, (N1,), ()),
            "26 edge e1 fits no type": (None, None, (E1,), ()),
            "27 key 4: n1 has no key value": (4, None, (N1,), ()),
            "28 key 1: n1 has (n2) and (e1)": (1, None, (N1,), ((N2,), (E1,))),
            '29 key 11: n1 and n2 share ("a) and (\\"n9\\u0007", n1, -5, true, 2024-02-29)':
                (11, None, (N1, N2), (('a) and ("n9\x07', N1, -5, True, datetime.date(2024, 2, 29)),)),
            "38 op 2: more than 64 labels or 256 properties": (None, 2, (), ()),
            "39 key 1: n1 has 3 values, outside 1..2": (1, None, (N1,), ()),
            "16 n1 is on a cycle": (None, None, (), ()),
        }
        for text, (key, operation, elements, tuples) in rows.items():
            with self.subTest(text=text):
                refused = refused_of(text)
                self.assertEqual((refused.key, refused.operation, refused.elements, refused.tuples), (key, operation, elements, tuples))
                self.assertEqual(str(refused), text)
                self.assertEqual(refused.number, int(text[:2]))

    def test_elements(self):
        self.assertEqual(str(element_of("e18446744073709551615")), "e18446744073709551615")
        for text in ("x1", "n", "n1 ", "1"):
            with self.subTest(text=text), self.assertRaises(ValueError):
                element_of(text)

    def test_an_explanation(self):
        told = explanation_of(["abstract thing", "type person", "key 1 scope", "key 2 scope", "key 2 value (n2)", 'key 2 value (n2, "x")'])
        self.assertEqual((told.types, told.abstract, told.keys), (("person",), ("thing",), {1: (), 2: ((N2,), (N2, "x"))}))

    def test_exceptions_can_be_sent_to_another_process(self):
        transaction = (pgguard.add_node(1),)
        refused = pickle.loads(pickle.dumps(refused_of("25 node n1 fits no type", transaction)))
        self.assertEqual((refused.number, refused.elements, refused.transaction), (25, (N1,), transaction))
        fault = fault_of(5, "pgguard: s.a: is locked by another run", (transaction,), 3)
        fault.leaves((transaction,))
        again = pickle.loads(pickle.dumps(fault))
        self.assertIs(type(again), pgguard.Locked)
        self.assertEqual((again.status, again.said, again.undecided, again.commits), (5, fault.said, (transaction, transaction), 3))

    def test_faults_of_their_own(self):
        rows = {
            (4, "store refused 30 no store"): pgguard.NoStore,
            (4, "store refused 32 another program's file"): pgguard.Fault,
            (4, "store refused 33 record 7 is damaged"): pgguard.Damaged,
            (4, "store refused 34 record 7: 25 node n1 fits no type"): pgguard.Damaged,
            (5, "pgguard: s.b: is locked by another run"): pgguard.Locked,
            (5, "pgguard: s.b: no space left"): pgguard.Fault,
            (-9, ""): pgguard.Fault,
        }
        for (status, said), kind in rows.items():
            with self.subTest(said=said):
                self.assertIs(type(fault_of(status, said)), kind)
