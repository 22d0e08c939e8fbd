"""The blocks of docs/PIPE.md and of the README give what they show; the package is installed without a network."""
import importlib.util
import os
import shutil
import subprocess
import sys
import unittest

from support import PACKAGE, StoreTest, executable

TOP = PACKAGE.parent.parent


def blocks(path):
    """Each block of a page: its line, its kind, its text."""
    found, kind, body = [], None, []
    for number, line in enumerate(path.read_text(encoding="utf-8").splitlines(), 1):
        if line.startswith("```"):
            if kind is None:
                kind, body, begin = line[3:], [], number
            else:
                found.append((begin, kind, "".join(f"{part}\n" for part in body)))
                kind = None
        else:
            body.append(line)
    return found


class Documents(StoreTest):
    def setUp(self):
        super().setUp()
        program = os.path.abspath(shutil.which(executable()))
        os.symlink(program, self.at("pgguard"))
        os.symlink(TOP / "tools", self.at("tools"))
        check = os.path.abspath(shutil.which(executable("pgcheck")))
        self.environment = {**os.environ, "PGGUARD": program, "PGCHECK": check, "PYTHONPATH": str(PACKAGE)}

    def shows(self, path, kind, words):
        """Runs the blocks of a kind, in their order and in one folder."""
        found = blocks(path)
        for (begin, its_kind, text), (_, next_kind, output) in zip(found, [*found[1:], (0, "", "")]):
            if its_kind == kind and next_kind == "output":
                with self.subTest(page=path.name, line=begin):
                    ran = subprocess.run([*words, text], cwd=self.folder.name, env=self.environment, capture_output=True, text=True, timeout=60)
                    self.assertEqual((ran.stdout, ran.stderr), (output, ""))

    def test_the_page_of_the_pipe(self):
        self.assertEqual(sum(kind == "sh" for _, kind, _ in blocks(TOP / "docs" / "PIPE.md")), 4)
        self.shows(TOP / "docs" / "PIPE.md", "sh", ["bash", "-c"])

    def test_the_readme(self):
        self.shows(PACKAGE / "README.md", "python", [sys.executable, "-c"])

    @unittest.skipUnless(importlib.util.find_spec("pip"), "pip isn't installed")
    def test_the_package_is_installed_without_a_network(self):
        words = ["install", "--quiet", "--no-index", "--no-compile", "--no-cache-dir", "--disable-pip-version-check", "--target", self.at("site")]
        environment = {**os.environ, "TMPDIR": self.folder.name}
        subprocess.run([sys.executable, "-m", "pip", *words, str(PACKAGE)], check=True, capture_output=True, env=environment)
        text = f"import sys; sys.path.insert(0, {self.at('site')!r}); import pgguard; print(pgguard.__file__, pgguard.Store)"
        ran = subprocess.run([sys.executable, "-I", "-c", text], check=True, capture_output=True, text=True)
        self.assertTrue(ran.stdout.startswith(self.at("site")), ran.stdout)
        self.assertTrue(os.path.exists(self.at("site/pgguard/py.typed")))


if __name__ == "__main__":
    unittest.main()
