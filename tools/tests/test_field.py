"""Tests of field.py: one command from a table to summary and pictures, over the library."""
import io
import os
import time
import unittest
from unittest import mock

import support
from bad_tables import BAD

import estimate
import field
import progress
from reading import settings, wells
from wrong import Wrong, run

setUpModule = support.need_library


def sample(name):
    return os.path.join(support.SAMPLES, name)


class Made(support.InFolder):
    def test_the_same_as_by_the_program(self):
        for name in ("field_32", "four_wells"):
            status, out, err = support.said_by(field.main, sample(name + ".csv"), "-o", self.path(name), "--links")
            self.assertEqual((status, err), (0, ""))
            stored = sorted(os.listdir(sample(name)))
            self.assertEqual(sorted(os.listdir(self.path(name))), stored)
            for file in stored:
                self.assertEqual(self.read(name, file), support.sample(os.path.join(name, file)))
            self.assertEqual(out.encode(), support.sample(os.path.join(name, "summary.txt")))

    def test_five_thousand_wells(self):
        status, out, err = support.tool("field.py", sample("field_5000.csv"), "-o", self.path("out"))
        self.assertEqual((status, err), (0, b""))
        for file in sorted(os.listdir(sample("field_5000"))):
            self.assertEqual(self.read("out", file), support.sample(os.path.join("field_5000", file)))
        self.assertIn(b"5,000 wells in 128 leaves", out)
        self.assertIn(b"      leaves per depth: 128 at depth 7\n", out)
        self.assertIn(b"      greatest cover 1465.64, in leaf 64: no well is farther than that from one that its leaf sends up\n", out)

    def test_any_table_with_a_head(self):
        table = self.write("t.csv", "id,aquifer,northing,easting\n" + "".join(f"q{i},sand,{i * i % 17},{i}\n" for i in range(40)))
        status, out, err = support.said_by(field.main, table, "--columns", "id,easting,northing", "--leaf", "4", "--coarse", "3",
                                           "--factor", "3", "-o", self.path("out"))
        self.assertEqual(status, 0, err)
        self.assertIn("columns passed over: aquifer", err)
        self.assertIn("neighbours not given: 16", err)
        self.assertIn("neighbours 16 (not given)", out)
        self.assertIn("q3", self.read("out", "level0.svg").decode())

    def test_stored_and_loaded(self):
        kept = self.path("field.tree")
        self.assertEqual(support.said_by(field.main, sample("field_32.csv"), "-o", self.path("a"), "--store", kept)[0], 0)
        status, out, err = support.said_by(field.main, sample("field_32.csv"), "-o", self.path("b"), "--load", kept)
        self.assertEqual((status, err), (0, ""))
        for file in os.listdir(self.path("a")):
            self.assertEqual(self.read("a", file), self.read("b", file))
        status, out, err = support.said_by(field.main, sample("field_32.csv"), "--leaf", "9", "-o", self.path("c"), "--load", kept)
        self.assertEqual(status, 1)
        self.assertIn("refused 18", err)
        status, out, err = support.said_by(field.main, sample("field_32.csv"), "-o", self.path("c"), "--load", self.path("none"))
        self.assertEqual(status, 2)

    def test_rows_on_request(self):
        support.said_by(field.main, sample("field_32.csv"), "--rows", "-o", self.path("out"))
        self.assertNotIn("W25, W31", self.read("out", "summary.txt").decode())
        self.assertIn("leaf 12: 24, 30", self.read("out", "summary.txt").decode())


class Refused(support.InFolder):
    def test_every_kind_of_bad_table(self):
        for kind, table, line, word, *options in BAD:
            if word != "refusal 17":
                with self.subTest(kind):
                    status, out, err = support.said_by(field.main, self.write("t.csv", table), "-o", self.path("out"),
                                                       *(options[0] if options else []))
                    self.assertEqual((status, out), (1, ""))
                    self.assertRegex(err, rf"^field.py: \S*t.csv, line {line}\b")
                    self.assertIn(word, err)
                    self.assertFalse(os.path.exists(self.path("out")))

    def test_limits(self):
        self.assertEqual((settings.LIBRARY.wells, settings.LIBRARY.neighbours), (1_048_576, 64))
        with self.assertRaisesRegex(Wrong, "line 5: one well more than 3.*refusal 8"):
            wells.parse("x\n1\n2\n3\n4\n", settings.LIBRARY._replace(wells=3))
        self.assertEqual(len(wells.parse("x\n" + "1\n" * 1000, settings.LIBRARY)), 1000)
        for neighbours, due in (("64", 0), ("65", 1)):
            status, _, err = support.said_by(field.main, sample("field_32.csv"), "--neighbours", neighbours, "-o", self.path("out"))
            self.assertEqual(status, due, err)

    def test_wrong_use(self):
        table = sample("four_wells.csv")
        for words in ([], [table, "-o", table], [self.path("no")], [table, "--columns", "a,b,c,d,e"], [table, "--leaf", "x"]):
            status, out, err = support.said_by(field.main, *words)
            self.assertEqual((status, out), (2, ""), words)
            self.assertTrue(err.strip())

    def test_no_library(self):
        status, out, err = support.tool("field.py", sample("four_wells.csv"), "-o", self.path("out"), REKVASHU_LIBRARY="/nowhere/lib.so")
        self.assertEqual((status, out), (2, b""))
        self.assertIn(b"python/make_shared.sh", err)
        self.assertNotIn(b"Traceback", err)

    def test_help_and_version(self):
        out = support.said_by(field.main, "--help")[1]
        for word in ("1,048,576", "well,x,y", "where not given", "256", "exit status"):
            self.assertIn(word, out)
        self.assertRegex(support.said_by(field.main, "--version")[1], r"^field.py \d+\.\d+\.\d+\n$")


class Long(support.InFolder):
    def test_a_long_build_is_announced(self):
        with mock.patch.object(estimate, "LONG", 0.0):
            _, _, err = support.said_by(field.main, sample("field_32.csv"), "-o", self.path("out"))
        self.assertIn("32 wells, levels of 32, 12, 4: about 1 s", err)

    def test_estimates(self):
        self.assertEqual([estimate.leaf_size(size, leaf) for size, leaf in ((64, 16), (64, 17), (100, 1), (10, 99))], [8, 16, 0.78125, 5])
        self.assertLess(estimate.seconds([200_000, 4096], 2, 256, 16), estimate.LONG)
        self.assertGreater(estimate.seconds([1_048_576, 100_000, 4096], 3, 256, 64), estimate.LONG)
        # two leaves: each well is compared with half of the others, or all
        self.assertGreater(estimate.seconds([200_000, 4096], 2, 10 ** 9, 16), 60)
        for wells in (1, 32, 5000):
            for dimension in (1, 2, 3):
                self.assertEqual(estimate.seconds([wells], dimension, 1, 64), 0)
                self.assertLess(estimate.seconds([wells, 1], dimension, 1, 64), 1)
                self.assertGreater(estimate.seconds([wells, 1], dimension, 256, 64), estimate.seconds([wells, 1], dimension, 256, 0))
        self.assertEqual([estimate.spelt(t) for t in (0.1, 50, 600, 9000)], ["1 s", "50 s", "10 min", "2.5 h"])

    def test_progress(self):
        said = io.StringIO()
        with mock.patch.object(progress, "FIRST", 0.01), mock.patch.object(progress, "EVERY", 0.01):
            answer = progress.with_progress(lambda: time.sleep(0.2) or 7, "1 s", said)
        self.assertEqual(answer, 7)
        self.assertIn("building: 0 s of about 1 s\n", said.getvalue())
        self.assertGreater(said.getvalue().count("\n"), 1)

    def test_what_the_work_raises_is_raised(self):
        with self.assertRaises(ZeroDivisionError):
            progress.with_progress(lambda: 1 // 0, "1 s")

    def test_stopped_from_the_keyboard(self):
        def work(argv):
            raise KeyboardInterrupt
        self.assertEqual(support.said_by(lambda argv: run("field.py", work, argv))[0], 130)


if __name__ == "__main__":
    unittest.main()
