"""The shared library: how it is made and found, and that it exports exactly the public names."""
import os
import re
import shutil
import subprocess
import sys
import tempfile
import unittest

import support

from rekvashu import library

setUpModule = support.need_library


def run(*words, **env):
    return subprocess.run(words, capture_output=True, text=True, env={**os.environ, **env})


def said(code, **env):
    """What Python prints for the code, with the package on its path."""
    return run(sys.executable, "-c", "import sys; sys.path.insert(0, 'python')\n" + code, **env)


class Exports(unittest.TestCase):
    @unittest.skipUnless(shutil.which("nm"), "NOT RUN, there is no 'nm' on this machine")
    def test_exactly_the_public_names(self):
        listed = run("nm", "-D", "--defined-only", os.environ["REKVASHU_LIBRARY"]).stdout
        names = {line.split()[-1] for line in listed.splitlines()}
        self.assertEqual(names, set(library.FUNCTIONS))


class Loading(unittest.TestCase):
    def setUp(self):
        kept = os.getcwd()
        os.chdir(support.ROOT)
        self.addCleanup(os.chdir, kept)

    def test_the_import_needs_no_library(self):
        done = said("import rekvashu; print(rekvashu.__version__)", REKVASHU_LIBRARY="/nowhere/libddm_c.so")
        self.assertEqual((done.returncode, done.stderr), (0, ""))
        self.assertTrue(re.fullmatch(r"\d+\.\d+\.\d+\n", done.stdout))

    def test_a_library_that_is_not_there(self):
        code = "import rekvashu\ntry:\n    rekvashu.square_root(2)\nexcept rekvashu.LibraryError as e:\n    print(e)"
        done = said(code, REKVASHU_LIBRARY="/nowhere/libddm_c.so")
        self.assertIn("python/make_shared.sh", done.stdout)
        self.assertEqual(done.stderr, "")

    @unittest.skipUnless(shutil.which("cc"), "NOT RUN, there is no 'cc' on this machine")
    def test_a_library_of_another_version(self):
        with tempfile.TemporaryDirectory() as folder:
            source, path = os.path.join(folder, "other.c"), os.path.join(folder, "libother.so")
            with open(source, "w", encoding="ascii") as f:
                f.write("".join(f"unsigned long {name}(void) {{ return 10203; }}\n" for name in library.FUNCTIONS))
            self.assertEqual(run("cc", "-shared", "-fPIC", "-o", path, source).returncode, 0)
            with self.assertRaisesRegex(library.LibraryError, "is version 1.2.3"):
                library.opened(path)
            with open(source, "w", encoding="ascii") as f:
                f.write("unsigned long ddm_version(void) { return 0; }\n")
            self.assertEqual(run("cc", "-shared", "-fPIC", "-o", path + "2", source).returncode, 0)
            with self.assertRaisesRegex(library.LibraryError, "has no ddm_build_sizes"):
                library.opened(path + "2")

    def test_wrong_use_of_the_script(self):
        self.assertEqual(run("c/shared.sh").returncode, 2)
        done = run("c/shared.sh", "/nowhere/at/all.so", REKVASHU_LIB="/nowhere")
        self.assertEqual(done.returncode, 1)
        self.assertIn("tools/build.sh ddm_c", done.stderr)


if __name__ == "__main__":
    unittest.main()
