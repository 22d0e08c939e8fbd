"""What the check of a schema says."""
import unittest

from support import SCHEMA, StoreTest, pgguard


class Schemas(StoreTest):
    def test_a_schema_without_a_warning(self):
        said = pgguard.check_schema(SCHEMA)
        self.assertEqual((said.name, said.is_strict, said.guard, said.warnings), ("people", True, pgguard.Guard(2, 3), ()))
        self.assertEqual(said.keys[1], "FOR (p:person) IDENTIFIER p.id")

    def test_a_key_that_guards_nothing(self):
        said = pgguard.check_schema("CREATE GRAPH TYPE g STRICT {(a: A {id INT}), FOR (x:B) IDENTIFIER x.id};")
        self.assertIn("unknown 1 B", said.warnings)

    def test_a_refused_schema(self):
        with self.assertRaises(pgguard.Refused) as caught:
            pgguard.check_schema("CREATE NODE TYPE (a: A); CREATE NODE TYPE (a: B);")
        self.assertEqual((caught.exception.number, caught.exception.text), (12, "no graph type"))


if __name__ == "__main__":
    unittest.main()
