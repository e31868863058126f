"""No input ends in a traceback: tables, jobs and printouts that are changed at random get a sentence, or are taken."""
import random
import unittest

import support

import make_job
import view_tree

BITS = [b",", b",,", b";", b"\n", b"\r", b"\"", b"#", b"\0", b"nan", b"1e999", b"-", b"\xff", b"\xc3\xa9", b"leaf,", b"coarse,0\n", b"well",
        b"x", b"9" * 30, b" ", b"\t", b"levels ", b"refused 3 at 1\n", b"domain ", b" cover ", b" depth ", b"ST", b"PT",
        b"\xe2\x80\xa8", b"W01", b"7ff0000000000000"]


def changed(r, data):
    """The bytes with a few places changed, left out, doubled or filled in."""
    data = bytearray(data)
    for _ in range(r.choice([1, 1, 2, 5])):
        at = r.randrange(len(data) + 1)
        kind = r.randrange(5)
        if kind == 0:
            data[at:at] = r.choice(BITS)
        elif kind == 1:
            del data[at:at + r.choice([1, 3, 20])]
        elif kind == 2 and at < len(data):
            data[at] = r.randrange(256)
        elif kind == 3:
            data[at:at] = data[at // 2:at]
        else:
            data[at:at + 1] = r.choice(BITS)
    return bytes(data)


class AnyInput(support.InFolder):
    def check(self, said):
        status, out, err = said
        self.assertIn(status, (0, 1))
        if status:
            self.assertEqual(out, "")
            self.assertRegex(err, r"(?s)^\w+\.py: .+\n$")

    def test_tables(self):
        r, statuses = random.Random(1), set()
        tables = [support.sample("field_32.csv"), support.sample("four_wells.csv")]
        for _ in range(400):
            said = support.said_by(make_job.main, self.write("t.csv", changed(r, r.choice(tables))), "-o", self.path("job"))
            self.check(said)
            statuses.add(said[0])
        self.assertEqual(statuses, {0, 1})

    def test_jobs_and_printouts(self):
        r, statuses = random.Random(2), set()
        job, text, table = (support.sample("four_wells" + end) for end in (".job", ".txt", ".csv"))
        for _ in range(400):
            files = [job, text, table]
            which = r.randrange(3)
            files[which] = changed(r, files[which])
            paths = [self.write(name, data) for name, data in zip(("job", "text", "table"), files)]
            said = support.said_by(view_tree.main, *paths, "-o", self.path("out"))
            self.check(said)
            statuses.add(said[0])
        self.assertEqual(statuses, {0, 1})


if __name__ == "__main__":
    unittest.main()
