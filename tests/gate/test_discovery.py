"""That the gate finds every test, in tests/ and in python/tests.

`python3 -m unittest discover` takes the files that are called test_*.py, in folders that are packages; all others it
passes over in silence.
"""

import ast
import pathlib
import unittest

ROOT = pathlib.Path(__file__).resolve().parent.parent.parent
# The folders with tests; each with the one that their modules are named from, which is no package itself.
TESTS = {"tests": "tests", "python/tests": "python"}


def has_tests(path):
    """Whether a class of the file has a method that is named as a test."""
    classes = [node for node in ast.walk(ast.parse(path.read_bytes())) if isinstance(node, ast.ClassDef)]
    methods = [method for each in classes for method in each.body if isinstance(method, ast.FunctionDef)]
    return any(method.name.startswith("test_") for method in methods)


def with_tests(folder):
    return [path for path in sorted((ROOT / folder).rglob("*.py")) if has_tests(path)]


def packages(folder, top):
    """The folders that have to be packages, for the tests to be found."""
    above = {each for path in with_tests(folder) for each in path.parents}
    return sorted(each for each in above if ROOT / top in each.parents)


class Discovery(unittest.TestCase):
    def test_there_are_some(self):
        for folder in TESTS:
            self.assertGreater(len(with_tests(folder)), 0, folder)

    def test_their_files_are_named_so(self):
        named_otherwise = [path for folder in TESTS for path in with_tests(folder) if not path.match("test_*.py")]
        self.assertEqual(named_otherwise, [])

    def test_their_folders_are_packages(self):
        needed = [package for folder, top in TESTS.items() for package in packages(folder, top)]
        self.assertEqual([package for package in needed if not (package / "__init__.py").is_file()], [])

    def test_none_is_beside_the_folders(self):
        """The gate takes the folders of tests/ one by one."""
        self.assertEqual(list((ROOT / "tests").glob("*.py")), [])
