"""Tests of the plain model of the stored tree: the example, its limits, and that the stored calls are its own."""
import contextlib
import math
import os
import struct
import unittest
from unittest import mock

import support

import make_stored_calls as calls
import stored_model as m

SETTINGS, POINTS = (1, 2, 1, 2, 1, 2), m.bits_of([0.0, 1.0, 3.0, 7.0])


def lists(settings=SETTINGS, points=POINTS):
    return {name: [9] * length for name, length in m.stated(settings[0], len(points) // settings[0], settings[2]).items()}


def lifted(data, cover_bytes):
    """A file of a form before, with covers of so many bytes, in the present form: a cover of 0 where it had none, and the least depth that
    fits each leaf, end each domain record."""
    reader = m.Reader(data)
    front = reader.take(20)
    d, points = front[2], reader.numbers(1)[0]
    out, coarse = [data[:reader.at], reader.take(points * (2 + 8 * d))], False
    while not coarse:
        start = reader.at
        reader.take(2)
        rows, domains = reader.numbers(2)
        reader.take(4 * rows)
        coarse, records, sizes = domains == 1, [], []
        for _ in range(domains):
            reader.take(2)
            own, borrowed = reader.numbers(2)
            reader.take(4 * (own + borrowed) + (0 if coarse else 8 * m.box_floats(d)) + cover_bytes)
            records.append(data[start:reader.at] + bytes(8 - cover_bytes))
            sizes.append(own)
            start = reader.at
        out += [record + m.numbers([depth]) for record, depth in zip(records, calls.least_depths(rows, sizes))]
    assert reader.at == len(data)
    return b"".join(out)


class StoredModel(unittest.TestCase):
    def setUp(self):
        self.tree = m.built(SETTINGS, POINTS)
        self.data = m.file_bytes(SETTINGS, POINTS, self.tree)

    def test_the_example(self):
        self.assertEqual(len(self.data), 330)
        self.assertEqual(m.read_file(self.data), (SETTINGS, POINTS, self.tree))
        number, place, count, after = m.load(SETTINGS, POINTS, self.data, lists())
        self.assertEqual((number, place, count), (0, 0, (2, [4, 2, 0, 0], [4, 1, 0, 0])))
        self.assertEqual(m.store(SETTINGS, POINTS, count, after, bytes(360)), (0, 0, 330, self.data + bytes(30)))

    def test_refusals_in_their_order(self):
        cut = self.data[:-1]
        for settings, points, data, expected in (
                ((1, 0, 1, 2, 1, 2), POINTS, cut, 2), (SETTINGS, POINTS, cut, 20), ((1, 2, 1, 2, 1, 3), POINTS, cut, 20),
                ((1, 2, 1, 2, 1, 3), POINTS[::-1], self.data, 18), (SETTINGS, POINTS[::-1], self.data, 19)):
            self.assertEqual(m.load(settings, points, data, lists())[0], expected)

    def test_limits(self):
        settings, points = (1, 1, 0, 2, 1, 2), m.bits_of([0.0, 1.0])
        for empty, expected in ((10, True), (11, False)):
            level = [([0], [], [0, 0], 0, 1), ([1], [], [0, 0], 0, 1)] + [([], [], [0, 0], 0, 2)] * empty
            self.assertEqual(m.sound(settings, 2, [([0, 1], level), ([0], [([0], [], [0, 0], 0, 0)])]), expected)

    def test_the_lists_of_the_domain_rows(self):
        self.assertEqual([m.stated(d, 4, 1)["boxes"] for d in (1, 2, 3)], [75, 125, 175])
        self.assertEqual([m.stated(d, 4, 1)["domains"] for d in (1, 2, 3)], [125, 125, 125])
        for name in ("domains", "boxes"):
            for short, expected in ((0, 0), (1, 11), (25, 11)):
                lent = lists()
                del lent[name][len(lent[name]) - short:]
                self.assertEqual(m.load(SETTINGS, POINTS, self.data, lent)[0], expected)

    def test_covers(self):
        infinity = m.bits_of([math.inf])[0]
        self.assertEqual([[leaf[3] for leaf in leaves] for _, leaves in self.tree], [[0, 0, infinity, infinity], [0]])
        for level, leaf in ((0, 0), (0, 3), (1, 0)):
            for cover, expected in [(cover, 0) for cover in calls.ANY_COVERS] + [(cover, 20) for cover in calls.NAN_COVERS]:
                tree = calls.with_cover(self.tree, level, leaf, cover)
                number, _, count, after = m.load(SETTINGS, POINTS, m.file_bytes(SETTINGS, POINTS, tree), lists())
                self.assertEqual(number, expected)
                if not expected:
                    self.assertEqual(after["boxes"][:15], m.packed(tree)["boxes"])
                lent = calls.lent(SETTINGS, POINTS, tree)
                self.assertEqual(m.store(SETTINGS, POINTS, m.counts(tree), lent, bytes(330))[0], expected)
        # the coarse box is still to be +0, whatever its cover is
        lent = calls.changed(calls.lent(SETTINGS, POINTS, self.tree), "boxes", 13, m.bits_of([-0.0])[0])
        self.assertEqual(m.store(SETTINGS, POINTS, m.counts(self.tree), lent, bytes(330))[0], 20)

    def test_depths(self):
        self.assertEqual([[leaf[4] for leaf in leaves] for _, leaves in self.tree], [[2] * 4, [0]])
        self.assertEqual(m.packed(self.tree)["domains"], [0, 1, 0, 1, 2, 1, 1, 1, 2, 2, 2, 1, 3, 2, 2, 3, 1, 5, 1, 2, 4, 2, 6, 0, 0])
        for level, leaf, depth, expected in ((0, 0, 1, 20), (0, 0, 3, 20), (0, 3, 1, 20), (0, 3, 3, 0), (0, 3, 21, 0), (0, 3, 22, 20),
                                             (0, 3, 2 ** 32 - 1, 20), (1, 0, 1, 20), (1, 0, 2 ** 32 - 1, 20)):
            tree = calls.with_depth(self.tree, level, leaf, depth)
            number, _, count, after = m.load(SETTINGS, POINTS, m.file_bytes(SETTINGS, POINTS, tree), lists())
            self.assertEqual(number, expected)
            if not expected:
                self.assertEqual(after["domains"][:25], m.packed(tree)["domains"])
            self.assertEqual(m.store(SETTINGS, POINTS, m.counts(tree), calls.lent(SETTINGS, POINTS, tree), bytes(330))[0], expected)
        tree = calls.with_depth(self.tree, 0, 3, 2 ** 64 - 1)
        self.assertEqual(m.store(SETTINGS, POINTS, m.counts(tree), calls.lent(SETTINGS, POINTS, tree), bytes(330))[0], 20)

    def test_depths_and_sizes(self):
        for sizes, depths, expected in (
                ([2, 2], [1, 1], True), ([3, 1], [1, 2], True), ([4, 0], [1, 2], False), ([1, 3], [1, 1], False),   # one more, two, one less
                ([1, 1, 2], [2, 2, 1], False), ([2, 1, 1], [1, 2, 2], True), ([1, 1, 2], [2, 2, 2], True),          # the order
                ([1, 1, 1], [21, 21, 21], True), ([1, 1, 1], [21, 21, 22], False),                                  # the greatest
                ([4, 0], [0, 3], True), ([4, 0], [0, 2], False), ([0, 4], [3, 0], False)):                          # all rows in one leaf
            settings = (1, 1, 0, 9, 1, 1)
            self.assertEqual(m.sound(settings, sum(sizes), calls.two_levels(sizes, depths)), expected, (sizes, depths))
            self.assertFalse(m.sound(settings, sum(sizes), calls.two_levels(sizes, depths, coarse=1)))

    def test_depths_in_the_file(self):
        case = SETTINGS, POINTS, self.tree
        first = 24 + 4 * 10 + 10 + 16
        self.assertEqual(self.data[first + 10 + 8 + 16:first + 46], bytes(8) + b"\2\0\0\0")
        self.assertEqual(self.data[-12:], bytes(12))
        for change in calls.depth_records():
            answers = [m.load(SETTINGS, POINTS, data, lists())[0] for data in calls.with_domains(case, change)]
            self.assertEqual((answers[0], answers[2]), (20, 20))

    def test_the_forms_before(self):
        for name, cover_bytes in zip(calls.FORMS_BEFORE, (0, 8)):
            files = list(calls.form_before(name))
            self.assertEqual(len(files), 15)
            levels = {(call.settings[0], call.data.count(b"TL")) for call in files}
            self.assertTrue(levels >= {(d, count) for d in (1, 2, 3) for count in (1, 2, 3, 4)}, levels)
            for call in files:
                self.assertEqual(m.load(call.settings, call.points, call.data, lists(call.settings, call.points))[0], 20)
                present = lifted(call.data, cover_bytes)
                # the same tree in the present form is loaded; but of the files without covers some have leaves that no depth fits
                any_depths = mock.patch.object(m, "depths_fit", lambda *_: True)
                with any_depths if cover_bytes == 0 else contextlib.nullcontext():
                    self.assertEqual(m.load(call.settings, call.points, present, lists(call.settings, call.points))[0], 0)

    def test_the_stored_calls_are_the_models(self):
        with open(os.path.join(support.ROOT, calls.PATH), "rb") as file:
            stored = file.read()
        made = b"".join(struct.pack("<I", len(body)) + body for _, body in map(calls.recorded, calls.calls()))
        self.assertTrue(stored == made, "crates/run_stored_calls/data/calls is not what tools/make_stored_calls.py writes")


if __name__ == "__main__":
    unittest.main()
