"""What the tests of the tools share: folders, and running a tool as a user does."""
import io
import os
import subprocess
import sys
import tempfile
import unittest
from contextlib import redirect_stderr, redirect_stdout

HERE = os.path.dirname(os.path.abspath(__file__))
TOOLS = os.path.dirname(HERE)
ROOT = os.path.dirname(TOOLS)
SAMPLES = os.path.join(ROOT, "samples")
sys.path.insert(0, TOOLS)

import repository  # noqa: F401  (puts the package on the path)


def said_by(main, *words):
    """A tool's exit status, and what it said on standard output and standard error."""
    with redirect_stdout(io.StringIO()) as out, redirect_stderr(io.StringIO()) as err:
        try:
            status = main(list(words))
        except SystemExit as ended:
            status = ended.code
    return status, out.getvalue(), err.getvalue()


def tool(name, *words, **env):
    """A tool run as a program of its own: its status, standard output and standard error as bytes."""
    done = subprocess.run([sys.executable, os.path.join(TOOLS, name), *words], capture_output=True, env={**os.environ, **env})
    return done.returncode, done.stdout, done.stderr


class InFolder(unittest.TestCase):
    """A test with a folder of its own."""

    def setUp(self):
        folder = tempfile.TemporaryDirectory()
        self.addCleanup(folder.cleanup)
        self.folder = folder.name

    def path(self, *names):
        return os.path.join(self.folder, *names)

    def write(self, name, content):
        data = content.encode("utf-8") if isinstance(content, str) else content
        with open(self.path(name), "wb") as f:
            f.write(data)
        return self.path(name)

    def read(self, *names):
        with open(self.path(*names), "rb") as f:
            return f.read()


def sample(name):
    with open(os.path.join(SAMPLES, name), "rb") as f:
        return f.read()


def need_library():
    """For setUpModule: a library to test with, or a word that there is none."""
    sys.path.append(os.path.join(ROOT, "python", "tests"))
    import linked_library
    linked_library.need_library()
