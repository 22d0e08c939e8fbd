"""Operations as text, and values that are refused before anything is written."""
import datetime
import enum
import unittest

from support import pgguard
from pgguard import add_edge, add_node, set_edge, set_node
from pgguard.operations import line_of, transaction_of, value_of


class Operations(unittest.TestCase):
    def test_each_operation_has_its_text(self):
        texts = {
            add_node(1, "Holder", "Flagged", name="Ann", number=5): '{"add_node":1,"labels":["Holder","Flagged"],"props":{"name":"Ann","number":5}}',
            add_edge(7, 1, 2, "owns", **{"from": True}): '{"add_edge":7,"from":1,"to":2,"labels":["owns"],"props":{"from":true}}',
            pgguard.remove_node(1): '{"remove_node":1}',
            pgguard.detach_node(1): '{"detach_node":1}',
            pgguard.remove_edge(7): '{"remove_edge":7}',
            set_node(2**64 - 1, "k", -(2**63)): '{"set_node":18446744073709551615,"key":"k","value":-9223372036854775808}',
            pgguard.unset_node(1, "k"): '{"unset_node":1,"key":"k"}',
            pgguard.label_node(1, "A"): '{"label_node":1,"label":"A"}',
            pgguard.unlabel_node(1, "A"): '{"unlabel_node":1,"label":"A"}',
            set_edge(7, "k", datetime.date(4, 2, 29)): '{"set_edge":7,"key":"k","value":{"date":"0004-02-29"}}',
            pgguard.unset_edge(7, "k"): '{"unset_edge":7,"key":"k"}',
            set_node(0, "_k", 'a"\\\n\x00\u2028é'): '{"set_node":0,"key":"_k","value":"a\\"\\\\\\n\\u0000\u2028é"}',
            pgguard.label_edge(7, "A"): '{"label_edge":7,"label":"A"}',
            pgguard.unlabel_edge(7, "A"): '{"unlabel_edge":7,"label":"A"}',
        }
        for operation, text in texts.items():
            self.assertEqual(operation.text, text)

    def test_values_of_other_types_are_type_errors(self):
        for value in (None, 1.0, b"x", ["x"], {"date": "2024-02-29"}, datetime.datetime(2024, 2, 29), datetime.time(1)):
            with self.subTest(value=value), self.assertRaises(TypeError):
                set_node(1, "k", value)
        for number in ("1", 1.0, True, None):
            with self.subTest(number=number), self.assertRaises(TypeError):
                add_node(number)
        with self.assertRaises(TypeError):
            add_node(1, 2)

    def test_what_no_line_can_hold_is_a_value_error(self):
        for value in (2**63, -(2**63) - 1, "x" * 65_536, "\ud800"):
            with self.subTest(value=str(value)[:20].encode("utf-8", "replace")), self.assertRaises(ValueError):
                set_node(1, "k", value)
        for number in (-1, 2**64):
            with self.subTest(number=number), self.assertRaises(ValueError):
                add_node(number)
        for name in ("", "1a", "a b", "é", "a" * 65, "a\n"):
            with self.subTest(name=name), self.assertRaises(ValueError):
                add_node(1, name)
            with self.subTest(name=name), self.assertRaises(ValueError):
                set_node(1, name, 1)

    def test_enumerations_are_their_values(self):
        kinds = enum.IntEnum("kinds", "first second")
        colour = enum.Enum("colour", {"red": "r"}, type=str)
        self.assertEqual(set_node(1, "k", kinds.second).text, '{"set_node":1,"key":"k","value":2}')
        self.assertEqual(set_node(1, "k", colour.red).text, '{"set_node":1,"key":"k","value":"r"}')

    def test_a_line_is_one_line(self):
        line = line_of(transaction_of([set_node(1, "k", 'a\n\r"\\\u2028é\x00')]))
        self.assertEqual(line.count(b"\n"), 1)
        self.assertTrue(line.endswith(b"]}\n"))
        self.assertEqual(line_of(()), b'{"ops":[]}\n')

    def test_a_transaction_has_operations(self):
        for given in ([1], ["x"], add_node(1), 5):
            with self.subTest(given=given), self.assertRaises(TypeError):
                transaction_of(given)

    def test_values_are_read_again(self):
        self.assertEqual(value_of({"date": "2024-02-29"}), datetime.date(2024, 2, 29))
        self.assertIs(value_of(True), True)
