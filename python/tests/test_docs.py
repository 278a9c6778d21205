"""The documentation of the module: every public name has some, and its examples run."""
import doctest
import importlib
import inspect
import pkgutil
import unittest

import kesarimbu

MODULES = [f"kesarimbu.{module.name}" for module in pkgutil.iter_modules(kesarimbu.__path__) if module.name != "__main__"]


def load_tests(loader, tests, pattern):
    for name in kesarimbu.__all__:
        getattr(kesarimbu, name)  # so that the package has all of them, which it has from their first use on
    for name in ["kesarimbu", *MODULES]:
        tests.addTests(doctest.DocTestSuite(importlib.import_module(name)))
    return tests


class Documented(unittest.TestCase):
    def test_every_public_name_has_a_description(self):
        for name in kesarimbu.__all__:
            self.assertTrue(inspect.getdoc(getattr(kesarimbu, name)), name)

    def test_every_public_function_has_an_example(self):
        for name in kesarimbu.__all__:
            found = getattr(kesarimbu, name)
            if inspect.isfunction(found):
                self.assertIn(">>>", found.__doc__, name)

    def test_the_names_are_all_there(self):
        self.assertEqual(set(kesarimbu.__all__) - set(dir(kesarimbu)), set())
        self.assertRaises(AttributeError, getattr, kesarimbu, "no_such_name")


if __name__ == "__main__":
    unittest.main()
