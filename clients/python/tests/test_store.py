"""A store through its life, by each call of the client."""
import datetime
import os
import pathlib
import unittest

from support import PACKAGE, SCHEMA, StoreTest, person, pgguard
from pgguard import Refused, Store, add_edge, add_node, set_node


class Life(StoreTest):
    def test_from_load_to_recover(self):
        name = self.at("people")
        self.assertEqual(Store.load(name, SCHEMA), (2, 3))
        born = datetime.date(1979, 3, 14)
        with Store(name) as store:
            self.assertEqual(store.apply(add_node(1, "Person", id=1, name='Ann "n2" é\n', born=born, member=True)), 1)
            self.assertEqual(store.apply(person(2), add_edge(1, 1, 2, "knows", since=born)), 2)
            self.assertEqual(store.apply(), 3)
            self.assertEqual(store.commits(), 3)
            self.assertEqual(
                list(store.recover()),
                [
                    pgguard.Node(1, frozenset(["Person"]), {"born": born, "id": 1, "member": True, "name": 'Ann "n2" é\n'}),
                    pgguard.Node(2, frozenset(["Person"]), {"id": 2}),
                    pgguard.Edge(1, 1, 2, frozenset(["knows"]), {"since": born}),
                ],
            )
            self.assertEqual(store.apply(person(3)), 4)
            self.assertEqual(store.checkpoint(), (2, 4))
            told = store.explain("n1")
            self.assertEqual((told.types, told.keys[1], told.keys[2]), (("person",), ((1,),), ((pgguard.Element("node", 2),),)))
            self.assertIsNone(store.explain(pgguard.Element("node", 9)))
            self.assertEqual(store.apply(person(4)), 5)
        self.assertEqual(store.commits(), 5)
        with self.assertRaises(ValueError):
            store.apply(person(5))

    def test_refusals(self):
        with Store(self.made("people")) as store:
            store.apply(person(1))
            with self.assertRaises(Refused) as caught:
                store.apply(person(2), person(3, identity=1))
            refused = caught.exception
            self.assertEqual((refused.number, refused.key, refused.tuples), (29, 1, ((1,),)))
            self.assertEqual([str(element) for element in refused.elements], ["n1", "n3"])
            self.assertEqual(refused.transaction, (person(2), person(3, identity=1)))
            with self.assertRaisesRegex(Refused, "^22 10001 operations"):
                store.apply(*(person(number) for number in range(2, 10_003)))
            with self.assertRaisesRegex(Refused, "^21 line is longer"):
                store.apply(*(set_node(1, "name", "x" * 65_535) for _ in range(20)))
            self.assertEqual(store.apply(person(2)), 2)

    def test_causes(self):
        with Store(self.made("people")) as store:
            store.apply(person(1))
            with self.assertRaises(Refused) as caught:
                store.apply(add_node(2, "Persno", id=2), check=True)
            self.assertEqual(str(caught.exception), "25 node n2 fits no type")
            self.assertEqual(caught.exception.causes, ("person: lacks label Person; label Persno is not admitted",))
            with self.assertRaises(Refused) as caught:
                store.apply(person(2, identity=1), check=True)
            self.assertEqual((caught.exception.number, caught.exception.causes), (29, ("FOR (p:person) IDENTIFIER p.id",)))
            with self.assertRaises(Refused) as caught:
                store.apply(set_node(9, "id", 9), check=True)
            self.assertEqual((caught.exception.number, caught.exception.causes), (23, ()))
            self.assertEqual(store.apply(person(2), check=True), 2)

    def test_a_type_error_writes_nothing(self):
        with Store(self.made("people")) as store:
            with self.assertRaises(TypeError):
                store.apply(person(1), "x")
            with self.assertRaises(TypeError):
                store.apply(add_node(1, "Person", id=1.0))
            self.assertEqual(store.apply(person(1)), 1)

    def test_evolve(self):
        with Store(self.made("people")) as store:
            store.apply(person(1))
            with self.assertRaisesRegex(Refused, "^25 node n1 fits no type"):
                store.evolve(SCHEMA.replace("OPTIONAL name", "name"))
            with self.assertRaisesRegex(Refused, "^12 no graph type"):
                store.evolve("")
            self.assertEqual(store.evolve("CREATE GRAPH TYPE g LOOSE {};"), (0, 0))
            self.assertEqual(store.apply(add_node(2)), 2)

    def test_load_refuses(self):
        with self.assertRaisesRegex(Refused, "^11 statement 1"):
            Store.load(self.at("none"), "CREATE GRAPH;")
        name = self.made("people")
        with self.assertRaisesRegex(pgguard.Fault, "31 a store is there"):
            Store.load(name, SCHEMA)

    def test_recover_that_is_left_early(self):
        with Store(self.made("people")) as store:
            for number in range(1, 2_000):
                self.assertEqual(store.apply(person(number)), number)
            elements = store.recover()
            self.assertEqual(next(elements).number, 1)
            with self.assertRaises(RuntimeError):
                store.apply(person(2_000))
            elements.close()
            self.assertEqual(store.apply(person(2_000)), 2_000)

    def test_a_name_with_a_folder_and_paths(self):
        folder = self.at("folder")
        os.mkdir(folder)
        path = pathlib.Path(folder) / "people"
        Store.load(path, SCHEMA)
        with Store(path, feed=[path.with_suffix(".one"), path.with_suffix(".two")]) as store:
            store.apply(person(1))
        self.assertEqual(path.with_suffix(".one").read_bytes(), path.with_suffix(".two").read_bytes())


class Found(unittest.TestCase):
    def test_the_version_is_that_of_the_checkout(self):
        version = (PACKAGE.parent.parent / "VERSION").read_text(encoding="utf-8").strip()
        self.assertIn(f'version = "{version}"', (PACKAGE / "pyproject.toml").read_text(encoding="utf-8"))
