"""Where the tests find what they test: the module, `quote`, and the shared library that `bindings/build` makes, or the one that
NOSINGCATNIP_LIBRARY names. With that empty, tests that need the library are left out."""
import importlib.machinery
import importlib.util
import io
import os
import sys
import unittest

ROOT = os.path.dirname(os.path.dirname(os.path.realpath(__file__)))
sys.path.insert(0, os.path.join(ROOT, 'bindings', 'python'))
sys.dont_write_bytecode = True
LIBRARY = os.environ.get('NOSINGCATNIP_LIBRARY', os.path.join(ROOT, 'target', 'sharedlib', 'libnosingcatnip.so'))
needs_library = unittest.skipUnless(os.path.exists(LIBRARY), 'the library is not built; bindings/build makes it')


def program(name):
    """A program at the root, as a module."""
    loader = importlib.machinery.SourceFileLoader(name, os.path.join(ROOT, name))
    module = importlib.util.module_from_spec(importlib.util.spec_from_loader(name, loader))
    loader.exec_module(module)
    return module


class Printed(io.TextIOWrapper):
    """A standard output in memory, with bytes beneath the text as a program's own has."""

    def __init__(self):
        super().__init__(io.BytesIO(), encoding='utf-8', newline='\n', write_through=True)

    def getvalue(self):
        return self.buffer.getvalue().decode()
