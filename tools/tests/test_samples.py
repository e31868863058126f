"""The samples are what the tools make of their tables."""
import os
import runpy
import unittest

import support

import model
import view_tree


class Samples(support.InFolder):
    def test_printouts(self):
        for name in ("four_wells", "field_32"):
            self.assertEqual(model.printout(support.sample(name + ".job")).encode(), support.sample(name + ".txt"))

    def test_pictures_and_summary(self):
        for name in ("four_wells", "field_32"):
            files = [os.path.join(support.SAMPLES, name + end) for end in (".job", ".txt", ".csv")]
            status, _, err = support.said_by(view_tree.main, *files, "-o", self.path(name), "--links")
            self.assertEqual((status, err), (0, ""))
            stored = sorted(os.listdir(os.path.join(support.SAMPLES, name)))
            self.assertIn("summary.txt", stored)
            self.assertEqual(sorted(os.listdir(self.path(name))), stored)
            for file in stored:
                self.assertEqual(self.read(name, file), support.sample(os.path.join(name, file)))

    def test_the_field_of_five_thousand(self):
        made = runpy.run_path(os.path.join(support.SAMPLES, "make_field_5000.py"))
        self.assertEqual(made["table"]().encode(), support.sample("field_5000.csv"))
        self.assertEqual(support.sample("field_5000.csv").count(b"\nP"), 5000)


if __name__ == "__main__":
    unittest.main()
