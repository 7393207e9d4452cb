"""What the tests of the tools share: a tool as a module, a folder for each test, and what is skipped."""

import contextlib
import importlib.machinery
import importlib.util
import io
import os
import sys
import tempfile
import unittest

TOOLS = os.path.dirname(os.path.abspath(__file__))
sys.path.insert(0, TOOLS)
sys.dont_write_bytecode = True  # so that a test leaves no compiled file beside a tool

LACKS = [name for name in ("numpy", "matplotlib") if importlib.util.find_spec(name) is None]


def needs(*names):
    """Skips a test where a module of these names is missing."""
    missing = [name for name in names if name in LACKS]
    return unittest.skipIf(
        missing, f"{' and '.join(missing)} missing: apt-get install -y python3-numpy python3-matplotlib"
    )


def tool(name):
    """The tool of this name as a module."""
    loader = importlib.machinery.SourceFileLoader(name, os.path.join(TOOLS, name))
    module = importlib.util.module_from_spec(importlib.util.spec_from_loader(name, loader))
    loader.exec_module(module)
    return module


def bytes_of(text):
    return bytes.fromhex("".join(text.split()))


class ToolTest(unittest.TestCase):
    """Tests of the tool `tool`, in the folder `room`."""

    tool = None

    def setUp(self):
        room = tempfile.TemporaryDirectory()
        self.addCleanup(room.cleanup)
        self.room = room.name

    def path(self, name):
        return os.path.join(self.room, name)

    def write(self, name, data):
        os.makedirs(os.path.dirname(self.path(name)), exist_ok=True)
        with open(self.path(name), "wb") as file:
            file.write(data)

    def read(self, name):
        with open(self.path(name), "rb") as file:
            return file.read()

    def run_tool(self, *words):
        """The status, and what was printed on standard output and standard error."""
        out, err = io.StringIO(), io.StringIO()
        with contextlib.redirect_stdout(out), contextlib.redirect_stderr(err):
            status = self.tool.main(words)
        return status, out.getvalue(), err.getvalue()
