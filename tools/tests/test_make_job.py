"""Tests of the job maker: the bytes, the settings, and every kind of bad table."""
import os
import struct
import unittest

import support
from bad_tables import BAD

import make_job
from reading import settings, wells
from wrong import Wrong

FOUR = os.path.join(support.SAMPLES, "four_wells.csv")


def parsed(text):
    return wells.parse(text, settings.PROGRAM)


class Good(support.InFolder):
    def made(self, table, *words):
        """The job of a table, and what was said."""
        path = self.write("table.csv", table)
        status, _, err = support.said_by(make_job.main, path, "-o", self.path("job"), *words)
        self.assertEqual(status, 0, err)
        return self.read("job"), err

    def test_bytes(self):
        data, _ = self.made(support.sample("four_wells.csv"))
        self.assertEqual(data[:20], b"ST\x01" + struct.pack("<IIIBI", 2, 1, 2, 1, 2))
        self.assertEqual(data[20:], b"".join(b"PT" + struct.pack("<d", x) for x in (0, 1, 3, 7)))

    def test_samples_are_made_from_their_tables(self):
        for name in ("four_wells", "field_32"):
            self.assertEqual(self.made(support.sample(name + ".csv"))[0], support.sample(name + ".job"))

    def test_standard_output(self):
        status, out, err = support.tool("make_job.py", FOUR)
        self.assertEqual((status, out, err), (0, support.sample("four_wells.job"), b""))

    def test_options_win(self):
        data, _ = self.made(support.sample("four_wells.csv"), "--coarse", "auto", "--leaf", "5")
        self.assertEqual(data[:20], b"ST\x01" + struct.pack("<IIIBI", 5, 1, 2, 0, 0))

    def test_settings_not_given_are_said(self):
        data, err = self.made("neighbours,3\nwell,x\nA,1\nB,2\n", "--factor", "4")
        self.assertEqual(data[:20], b"ST\x01" + struct.pack("<IIIBI", 256, 3, 4, 0, 0))
        self.assertEqual(err.splitlines()[:2], ["leaf not given: 256", "coarse not given: auto"])

    def test_a_threshold_not_below_the_wells_is_said(self):
        for coarse, words in (("auto", "512 (auto is at least 512)"), ("2", "threshold is 2,")):
            _, err = self.made(f"leaf,1\nneighbours,1\nfactor,2\ncoarse,{coarse}\nwell,x\nA,1\nB,2\n")
            self.assertEqual(len(err.splitlines()), 1)
            self.assertIn("warning", err)
            self.assertIn(words, err)
        _, err = self.made("leaf,1\nneighbours,1\nfactor,2\ncoarse,1\nwell,x\nA,1\nB,2\n")
        self.assertEqual(err, "")

    def test_a_number_sign_after_the_head_is_a_name(self):
        table = parsed("# a comment\nleaf,1\n  # another\nwell,x\n#1,5\n# 2,6\n")
        self.assertEqual((table.names, list(table.coordinates)), (["#1", "# 2"], [5.0, 6.0]))

    def test_forms(self):
        for text in ("well,x,y\r\nA,1,2\r\n\r\nB,3,4\r\n", "\ufeffWell, X ,Y\nA, 1 ,2\n,,\nB,3,4", 'y,well,x\n2,"A",1\n4,B,3\n',
                     "well,x,y\nA,+1.,2e0\nB,.3e1,4\n"):
            table = wells.parse(text.lstrip("\ufeff"), settings.PROGRAM)
            self.assertEqual((table.names, list(table.coordinates)), (["A", "B"], [1.0, 2.0, 3.0, 4.0]))
        data, _ = self.made("\ufeffx\n1\n".encode("utf-8"))
        self.assertEqual(len(data), 30)

    def test_names_with_separators_inside(self):
        self.assertEqual(parsed('well,x\n"A, north",1\n"say ""B""\u2028",2\n').names, ["A, north", 'say "B"'])

    def test_chosen_columns(self):
        text = "id,aquifer,easting,northing\nA,sand,1,2\nB,clay,3,4\n"
        data, err = self.made(text, "--columns", "id,easting,northing")
        self.assertEqual(data[20:], b"".join(b"PT" + struct.pack("<2d", *p) for p in ((1, 2), (3, 4))))
        self.assertIn("columns passed over: aquifer", err)
        self.assertEqual(wells.parse(text, settings.PROGRAM, ["-", "northing"]).names, None)
        with self.assertRaisesRegex(Wrong, "line 1: .*'depth'"):
            wells.parse(text, settings.PROGRAM, ["id", "depth"])


class Bad(support.InFolder):
    def test_forty_kinds(self):
        self.assertGreaterEqual(len(BAD), 40)
        for kind, table, line, word, *options in BAD:
            with self.subTest(kind):
                path = self.write("table.csv", table)
                status, out, err = support.said_by(make_job.main, path, "-o", self.path("job"), *(options[0] if options else []))
                self.assertEqual(status, 1, err)
                self.assertEqual(out, "")
                self.assertRegex(err, rf"^make_job.py: \S*table.csv, line {line}\b")
                self.assertIn(word, err)
                self.assertEqual(err.count("\n"), 1)
                self.assertFalse(os.path.exists(self.path("job")))

    def test_the_cell_is_named(self):
        for text, where in (("x,y\n1,2\n1,two\n", "line 3, column 2"), ("x,y,depth\n1,2,3\n", "line 1, column 3"),
                            ("leaf,0\nx\n1\n", "line 1, column 2")):
            status, _, err = support.said_by(make_job.main, self.write("table.csv", text))
            self.assertEqual(status, 1)
            self.assertIn(where + ":", err)

    def test_refused_options(self):
        for option, value, number in (("--leaf", "0", 2), ("--factor", "1", 3), ("--coarse", "0", 4), ("--neighbours", "17", 17)):
            status, _, err = support.said_by(make_job.main, FOUR, option, value)
            self.assertEqual(status, 1)
            self.assertIn(f"{option}: ", err)
            self.assertIn(f"refusal {number}", err)


class Use(support.InFolder):
    def test_wrong_use(self):
        for words in ([], ["--leaf"], [FOUR, "--depth", "3"], [FOUR, "--leaf", "two"], [self.path("nowhere.csv")], [self.folder],
                      [FOUR, "-o", self.path("no", "folder")], [FOUR, "-o", self.folder], [FOUR, "--columns", "id"], ["a\0b"]):
            status, out, err = support.said_by(make_job.main, *words)
            self.assertEqual((status, out), (2, ""), words)
            self.assertNotIn("Traceback", err)
            self.assertTrue(err.strip())

    def test_help_and_version(self):
        status, out, _ = support.said_by(make_job.main, "--help")
        self.assertEqual(status, 0)
        for word in ("well,x,y", "leaf,2", "limits", "32 wells", "where not given", "256", "128", "exit status"):
            self.assertIn(word, out)
        self.assertRegex(support.said_by(make_job.main, "--version")[1], r"^make_job.py \d+\.\d+\.\d+\n$")

    @unittest.skipUnless(os.path.exists("/dev/full"), "NOT RUN, there is no /dev/full")
    def test_a_full_disc(self):
        for words in ([FOUR, "-o", "/dev/full"],):
            status, _, err = support.tool("make_job.py", *words)
            self.assertEqual(status, 2)
            self.assertNotIn(b"Traceback", err)


if __name__ == "__main__":
    unittest.main()
