"""The library under test: the one that REKVASHU_LIBRARY names, or one that is linked from the archive for the tests."""
import atexit
import functools
import os
import subprocess
import tempfile
import unittest

HERE = os.path.dirname(os.path.abspath(__file__))
ROOT = os.path.dirname(os.path.dirname(HERE))


@functools.lru_cache(maxsize=None)
def linked():
    """A shared library linked from the archive: its path, or why there is none."""
    archive = os.path.join(os.environ.get("REKVASHU_LIB", os.path.join(ROOT, "target", "staticlib")), "libddm_c.a")
    if not os.path.exists(archive):
        return None, f"{archive} is not there: 'tools/build.sh ddm_c' makes it"
    folder = tempfile.TemporaryDirectory()
    atexit.register(folder.cleanup)
    path = os.path.join(folder.name, "libddm_c.so")
    done = subprocess.run([os.path.join(ROOT, "c", "shared.sh"), path], capture_output=True, text=True)
    return (path, None) if done.returncode == 0 else (None, done.stderr.strip())


def need_library():
    """For setUpModule: the tests of a file call the library that REKVASHU_LIBRARY names, or one linked from the archive."""
    if os.environ.get("REKVASHU_LIBRARY"):
        return
    path, why = linked()
    if path is None:
        raise unittest.SkipTest(f"NOT RUN, the shared library can't be made: {why}")
    os.environ["REKVASHU_LIBRARY"] = path
