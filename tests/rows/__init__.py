"""Rows: bytes, and what is read from them. A module has the tests of a box, or those of headers and lists. A test is a
generator function without parameters that yields rows."""

import importlib
import inspect
import pkgutil


def tests():
    """Yields the module, the name and the generator function of each test."""
    for found in sorted(pkgutil.iter_modules(__path__), key=lambda it: it.name):
        if found.name.startswith("test_"):
            continue
        module = importlib.import_module(f"{__name__}.{found.name}")
        for name, test in vars(module).items():
            own = inspect.isgeneratorfunction(test) and test.__module__ == module.__name__
            if own and not inspect.signature(test).parameters:
                yield found.name, name, test


def rows(left_out=()):
    """Yields all rows, each after the name of its test, without those of the modules `left_out`."""
    for module, name, test in tests():
        if module not in left_out:
            yield from ((f"{module}::{name}", row) for row in test())
