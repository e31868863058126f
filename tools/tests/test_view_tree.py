"""Tests of the viewer: whole printouts, jobs and printouts that belong together, refusals in words, and the three lines."""
import os
import re
import unittest

import support

from reading import job_stream
import model
import summary
import view_tree
from rekvashu.refusals import REFUSALS
from reading.tree_text import Leaf, Level


def sample(name):
    return os.path.join(support.SAMPLES, name)


class Viewing(support.InFolder):
    def view(self, job, printout, *words):
        """The viewer's status and words for a job and a printout, given as bytes."""
        return support.said_by(view_tree.main, self.write("job", job), self.write("printout", printout), "-o", self.path("out"), *words)

    def refused(self, job, printout, *words):
        status, out, err = self.view(job, printout, *words)
        self.assertEqual((status, out), (1, ""))
        self.assertEqual(err.count("\n"), 1)
        self.assertFalse(os.path.exists(self.path("out")))
        return err


class Whole(Viewing):
    def test_every_front_of_a_printout(self):
        whole, job = support.sample("four_wells.txt"), support.sample("four_wells.job")
        self.assertEqual(len(whole), 520)
        for length in range(len(whole)):
            self.assertIn("not whole", self.refused(job, whole[:length]))
        self.assertEqual(self.view(job, whole)[0], 0)

    def test_a_line_left_out(self):
        job, lines = support.sample("field_32.job"), support.sample("field_32.txt").splitlines(keepends=True)
        for left_out in range(1, len(lines)):
            status, out, err = self.view(job, b"".join(lines[:left_out] + lines[left_out + 1:]))
            # where a level's last domain is left out nothing is missing but its wells
            self.assertTrue((status == 1 and "not whole" in err) or "in no leaf: " in out, lines[left_out])

    def test_line_ends_of_windows(self):
        self.assertEqual(self.view(support.sample("four_wells.job"), support.sample("four_wells.txt").replace(b"\n", b"\r\n"))[0], 0)

    def test_other_files(self):
        job, text = support.sample("four_wells.job"), support.sample("four_wells.txt")
        self.assertIn("UTF-16", self.refused(job, text.decode().encode("utf-16")))
        self.assertIn("'levels'", self.refused(job, b"well,x\nA,1\n"))
        self.assertIn("line 3", self.refused(job, text.replace(b"internal 0 ", b"internal " + b"9" * 5000 + b" ", 1)))
        self.assertIn("job stream", self.refused(b"levels 2\n", text))
        self.assertIn("byte 50", self.refused(job[:-1], text))
        self.assertIn("job stream", self.refused(b"", text))


class Together(Viewing):
    def test_rows(self):
        self.assertIn("wells 0 to 3", self.refused(support.sample("four_wells.job"), support.sample("field_32.txt")))

    def test_dimension(self):
        flat = job_stream.unpack(support.sample("four_wells.job"))
        wide = flat._replace(dimension=2, coordinates=[x for c in flat.coordinates for x in (c, 0.0)])
        err = self.refused(job_stream.pack(wide), support.sample("four_wells.txt"))
        self.assertIn("2 axes", err)
        self.assertIn("do not belong together", err)

    def test_outer_box(self):
        job = job_stream.unpack(support.sample("four_wells.job"))
        for last in (8.0, 6.0):
            other = job_stream.pack(job._replace(coordinates=[0.0, 1.0, 3.0, last]))
            self.assertIn(f"reach from [0.0] to [{last}]", self.refused(other, support.sample("four_wells.txt")))
        inner = support.sample("four_wells.txt").replace(b"box 3ff0000000000000 4008", b"box 7ff8000000000000 4008")
        self.assertIn("leaf 1 of level 0 from [nan]", self.refused(support.sample("four_wells.job"), inner))

    def test_coordinates_that_the_program_refuses(self):
        job = job_stream.unpack(support.sample("four_wells.job"))
        for value in (float("nan"), float("inf")):
            other = job_stream.pack(job._replace(coordinates=[0.0, 1.0, 3.0, value]))
            self.assertIn("refusal 10", self.refused(other, support.sample("four_wells.txt")))
            self.assertIn("refusal 10", self.refused(other, b"levels 1\nlevel 0 points 0 1 2 3\n"
                                                       b"domain 0 internal 0 1 2 3 overlap - box - cover 0000000000000000 depth 0\n"))

    def test_settings(self):
        job = job_stream.unpack(support.sample("field_32.job"))
        other = job_stream.pack(job._replace(settings={**job.settings, "coarse": 5}))
        self.assertIn("levels of 32, 13, 5 wells, and the printout has 32, 12, 4", self.refused(other, support.sample("field_32.txt")))
        other = job_stream.pack(job._replace(settings={**job.settings, "factor": 1}))
        self.assertIn("the program refuses this job", self.refused(other, support.sample("field_32.txt")))

    def test_a_row_that_is_no_well(self):
        text = support.sample("four_wells.txt").replace(b"overlap 0 2", b"overlap 0 9")
        self.assertIn("row 9", self.refused(support.sample("four_wells.job"), text))

    def test_table(self):
        job, text = support.sample("four_wells.job"), support.sample("four_wells.txt")
        self.assertIn("32 with 2", self.refused(job, text, sample("field_32.csv")))
        moved = self.write("moved.csv", support.sample("four_wells.csv").replace(b"C,3", b"C,4"))
        self.assertIn("line 9", self.refused(job, text, moved))
        bad = self.write("bad.csv", "well,x\nA,west\n")
        self.assertIn("bad.csv, line 2", self.refused(job, text, bad))


class Refusals(Viewing):
    def test_every_number_in_words(self):
        for number, (words, mender) in REFUSALS.items():
            err = self.refused(support.sample("four_wells.job"), f"refused {number} at 0\n".encode())
            self.assertIn(words, err)
            self.assertIn(mender, err)

    def test_the_models_refusals(self):
        stream = support.sample("four_wells.job")
        for job, number in ((stream[:11] + b"\1" + stream[12:], 3), (stream[:3] + b"\0" + stream[4:], 2)):
            printout = model.printout(job)
            self.assertEqual(printout, f"refused {number} at 0\n")
            self.assertIn(REFUSALS[number][0], self.refused(job, printout.encode()))

    def test_the_well_of_a_coordinate(self):
        err = self.refused(support.sample("field_32.job"), b"refused 10 at 5\n", sample("field_32.csv"))
        self.assertIn("y of the well W03", err)


class Lines(Viewing):
    def lines(self, name, *words):
        status, out, err = self.view(support.sample(name + ".job"), support.sample(name + ".txt"), sample(name + ".csv"), *words)
        self.assertEqual((status, err), (0, ""))
        self.assertEqual(self.read("out", "summary.txt").decode(), out)
        return out.splitlines()

    def test_settings(self):
        lines = self.lines("field_32")
        self.assertIn("   as given: leaf 4, neighbours 3, factor 3, coarse 4", lines)
        self.assertIn("   come to:  coarse threshold 4, factor 3, levels of 32, 12, 4 wells", lines)

    def test_owners(self):
        lines = self.lines("field_32")
        self.assertIn("   level 0: 32 wells in 16 leaves, wells a leaf: least 2, most 2; each well has exactly one leaf", lines)
        self.assertIn("   level 2: 4 wells in the one domain of the coarse level; each well has exactly one leaf", lines)

    def test_the_east_edge_is_heard_by_nobody(self):
        lines = self.lines("field_32")
        at = lines.index("   level 0: 12 of 32 wells go up, a leaf: least 0, most 1 (0 in 4 leaves, 1 in 12 leaves)") + 1
        self.assertEqual(lines[at], "      greatest cover infinite: 4 leaves with wells send none; among the other leaves 286.761, in leaf 4")
        self.assertEqual(lines[at + 1], "      4 leaves send none; above this level nobody hears their 8 wells:")
        self.assertEqual(lines[at + 2:at + 6], ["      leaf 12: W25, W31", "      leaf 13: W11, W24", "      leaf 14: W20, W32",
                                                "      leaf 15: W14, W22"])

    def test_the_greatest_cover_of_a_level(self):
        lines = self.lines("field_32")
        at = lines.index("   level 1: 4 of 12 wells go up, a leaf: least 1, most 1") + 1
        self.assertEqual(lines[at], "      greatest cover 273.733, in leaf 3: no well is farther than that from one that its leaf sends up")
        inf = float("inf")
        for covers, sent, words in (
                ([1.0, 2.5, 2.5], [1, 1, 1], "2.5, in leaf 1: no well is farther than that from one that its leaf sends up"),
                ([0.0, 0.0], [1, 1], "0, in leaf 0: no well is farther than that from one that its leaf sends up"),
                ([2.0, inf, 3.0], [1, 0, 1], "infinite: 1 leaf with wells sends none; among the other leaves 3, in leaf 2"),
                ([inf, 3.0], [2, 1], "infinite: in 1 leaf the distances are too large for a 64-bit float; among the other leaves 3, in leaf 1"),
                ([inf, inf, inf], [2, 0, 0], "infinite: 2 leaves with wells send none, and in 1 leaf the distances are too large for a "
                 "64-bit float")):
            self.assertEqual(summary.cover_line(covers, sent), "greatest cover " + words)

    def test_a_printout_without_covers(self):
        job, text = support.sample("four_wells.job"), support.sample("four_wells.txt")
        self.assertIn("line 4: this domain has no cover", self.refused(job, text.replace(b"4008000000000000 cover 0000000000000000", b"4008000000000000")))
        self.assertIn("line 3: this domain has no cover", self.refused(job, re.sub(rb" cover \w+", b"", text)))
        self.assertIn("line 3: this domain has no cover", self.refused(job, re.sub(rb" cover \w+ depth \d+", b"", text)))
        self.assertIn("line 5: the cover is not a number", self.refused(job, text.replace(b"cover 7ff0000000000000", b"cover fff0000000000001", 1)))

    def test_leaves_per_depth(self):
        lines = self.lines("field_32")
        for level, leaves in (("   level 0: 32 wells", "16 at depth 4"), ("   level 1: 12 wells", "4 at depth 2")):
            at = [number for number, line in enumerate(lines) if line.startswith(level)][0]
            self.assertEqual(lines[at + 2], "      leaves per depth: " + leaves)
        self.assertEqual("\n".join(lines).count("leaves per depth"), 2)
        self.assertEqual(summary.depth_line([2, 2, 3, 3, 3, 3]), "leaves per depth: 2 at depth 2, 4 at depth 3")
        self.assertEqual(summary.depth_line([9, 10] + [10] * 1999), "leaves per depth: 1 at depth 9, 2,000 at depth 10")

    def test_a_printout_without_depths(self):
        job, text = support.sample("four_wells.job"), support.sample("four_wells.txt")
        self.assertIn("line 3: this domain has no depth: the printout is not whole, or a version before 0.6.0 printed it",
                      self.refused(job, re.sub(rb" depth \d+", b"", text)))
        self.assertIn("line 8: this domain has no depth", self.refused(job, text.replace(b" depth 0", b"")))
        for other in (b" depth -", b" depth ", b" depth", b" depth 2 ", b" depth 2 2", b" depth 0x2", b" depth " + b"9" * 21):
            self.assertIn("line 3: this is not the line", self.refused(job, text.replace(b" depth 2", other, 1)))
        swapped = re.sub(rb"( cover \w+)( depth \d+)", rb"\2\1", text)
        self.assertIn("line 3: this is not the line", self.refused(job, swapped))

    def test_depths_that_are_not_those_of_a_level(self):
        job, text = support.sample("four_wells.job"), support.sample("four_wells.txt")
        at = text.index(b" depth 2\nlevel")
        for old, new, words in ((b" depth 0", b" depth 1", "in level 1 the coarse domain has depth 1, and not 0"),
                                (b"depth 2\ndomain 3", b"depth 3\ndomain 3",
                                 "in level 0 leaf 3 has depth 2, and the leaf before it 3: depths never fall"),
                                (b"depth 2\nlevel", b"depth 22\nlevel", "in level 0 leaf 3 has depth 22, and no leaf is deeper than 21"),
                                (b"depth 2\nlevel", b"depth 99999999999999999999\nlevel", "no leaf is deeper than 21"),
                                (b"depth 2\ndomain 1", b"depth 1\ndomain 1", "in level 0 leaf 0 has 1 of 4 wells, which does not fit its depth 1"),
                                (b"depth 2\ndomain 1", b"depth 0\ndomain 1", "leaf 0 has 1 of 4 wells, which does not fit its depth 0")):
            self.assertEqual(text.count(old), 1)
            err = self.refused(job, text.replace(old, new))
            self.assertIn(words, err)
            self.assertIn("the printout is not whole, or was changed", err)
        # a leaf of one row may lie deeper, as far as 21
        for depth in (b"3", b"21"):
            self.assertEqual(self.view(job, text[:at] + b" depth " + depth + text[at + 8:])[0], 0)

    def test_rows_on_request(self):
        self.assertIn("      leaf 12: 24, 30", self.lines("field_32", "--rows"))

    def test_wells_without_a_leaf_or_with_two_are_named(self):
        leaves = [Leaf([0, 1], [], ([0.0], [1.0]), 1.0, 1), Leaf([1, 2, 4], [], ([1.0], [2.0]), float("inf"), 1)]
        levels = [Level([0, 1, 2, 3], leaves), Level([0], [Leaf([0], [], None, 0.0, 0)])]
        text = summary.summary({"leaf": 2, "neighbours": 1, "factor": 4, "coarse": 1}, 1, levels, "ABCDE".__getitem__)
        self.assertIn("NOT each well has exactly one leaf", text)
        for line in ("in no leaf: D", "in leaves 0 and 1: B", "in leaf 1, but not active: E"):
            self.assertIn(line, text)
        self.assertNotIn(": C\n", text)
        self.assertIn("wells a leaf: least 2, most 3 (2 in 1 leaf, 3 in 1 leaf)", text)

    def test_long_lists_are_cut_on_the_screen_only(self):
        levels = [Level(list(range(60)), [Leaf([i], [], ([0.0], [1.0]), 0.0, 6) for i in range(60)]), Level([0], [Leaf([0], [], None, 0.0, 0)])]
        settings = {"leaf": 1, "neighbours": 1, "factor": 60, "coarse": 1}
        self.assertEqual(summary.summary(settings, 1, levels, str).count("\n      leaf "), 59)
        short = summary.summary(settings, 1, levels, str, most=20)
        self.assertEqual(short.count("\n      leaf "), 20)
        self.assertIn(".. and 39 more: summary.txt has all", short)

    def test_one_coarse_level(self):
        job = job_stream.unpack(support.sample("four_wells.job"))
        stream = job_stream.pack(job._replace(settings={**job.settings, "coarse": "auto"}))
        status, out, _ = self.view(stream, model.printout(stream).encode())
        self.assertEqual(status, 0)
        self.assertIn("coarse threshold 512", out)
        self.assertIn("not below the wells", out)


class Use(Viewing):
    def test_wrong_use(self):
        job, text = sample("four_wells.job"), sample("four_wells.txt")
        for words in ([], [job], [self.path("no"), text], [job, self.path("no")], [job, text, "-o", job], [job, text, "--what"]):
            status, out, err = support.said_by(view_tree.main, *words)
            self.assertEqual((status, out), (2, ""), words)
            self.assertTrue(err.strip())

    def test_help_and_version(self):
        self.assertIn("wall sheet", support.said_by(view_tree.main, "--help")[1])
        self.assertRegex(support.said_by(view_tree.main, "--version")[1], r"^view_tree.py \d+\.\d+\.\d+\n$")

    def test_run_as_a_program(self):
        status, out, err = support.tool("view_tree.py", sample("four_wells.job"), sample("four_wells.txt"), "-o", self.path("out"))
        self.assertEqual((status, err), (0, b""))
        self.assertIn(b"leaf 3: 3", out)


if __name__ == "__main__":
    unittest.main()
