"""Tests of what the package says of itself: each public item has a doc, and a type for each argument and result."""
import inspect
import pathlib
import re
import typing
import unittest

import fadrinzo
from fadrinzo import tiles, wkt

CARGO = pathlib.Path(__file__).resolve().parents[2] / "rust/Cargo.toml"


def public_items():
    """The public items of the package, and the public methods of its classes."""
    for module in (fadrinzo, tiles, wkt):
        for name in module.__all__:
            item = getattr(module, name)
            if callable(item):
                yield f"{module.__name__}.{name}", item
            if inspect.isclass(item):
                yield from ((f"{name}.{it}", value) for it, value in vars(item).items() if not it.startswith("_"))


class Hints(unittest.TestCase):
    def test_docs(self):
        missing = [name for name, item in public_items() if not (item.__doc__ or "").strip()]
        self.assertEqual(missing, [])

    def test_types_of_arguments_and_results(self):
        count = 0
        for name, item in public_items():
            function = item.fget if isinstance(item, property) else item
            if inspect.isfunction(function):
                wanted = {it for it in inspect.signature(function).parameters if it != "self"} | {"return"}
                self.assertEqual(set(typing.get_type_hints(function)), wanted, name)
                count += 1
        self.assertGreater(count, 15)

    def test_version(self):
        self.assertEqual(fadrinzo.__version__, re.search(r'^version = "(.*)"', CARGO.read_text(encoding="utf-8"), re.M)[1])


if __name__ == "__main__":
    unittest.main()
