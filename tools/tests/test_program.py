"""Tests of the program target/bin/ddm_tree through pipes: python3 -m unittest discover -s tools/tests

What is proved of the program ends at the kit's read and write. Here it is run: the input comes in single bytes, in lumps of odd sizes
and at once, is longer than the program's list, ends early, or cannot be read. Each answer is compared with the plain model's.
DDM_TREE=PATH names the program, which then has to be there.
"""
import os
import struct
import subprocess
import sys
import unittest

HERE = os.path.dirname(os.path.abspath(__file__))
ROOT = os.path.dirname(os.path.dirname(HERE))
sys.path.insert(0, os.path.dirname(HERE))
import model

NAMED = os.environ.get("DDM_TREE")
PROGRAM = os.path.abspath(NAMED) if NAMED else os.path.join(ROOT, "target", "bin", "ddm_tree")
DECISIVE = 878
LIST = 1024


def sample(name):
    with open(os.path.join(ROOT, "samples", name), "rb") as f:
        return f.read()


def cut(data, sizes):
    """The data in lumps of these sizes, round and round."""
    lumps, at, turn = [], 0, 0
    while at < len(data):
        size = sizes[turn % len(sizes)]
        lumps.append(data[at:at + size])
        at, turn = at + size, turn + 1
    return lumps


def lumped_pipe():
    """A pipe of which each read takes what one write put there (packet mode of Linux), and no more."""
    return os.pipe2(os.O_DIRECT)


def piped(lumps):
    """What the program writes for an input that comes in these lumps, a read for each. It may end before it has taken all."""
    out, into = lumped_pipe()
    run = subprocess.Popen([PROGRAM], stdin=out, stdout=subprocess.PIPE, stderr=subprocess.PIPE)
    os.close(out)
    try:
        for lump in lumps:
            os.write(into, lump)
    except BrokenPipeError:
        pass
    os.close(into)
    written, said = run.communicate(timeout=60)
    return written.decode(), said.decode()


@unittest.skipUnless(NAMED or os.access(PROGRAM, os.X_OK), "target/bin/ddm_tree is not built: tools/build.sh ddm_tree builds it")
class Program(unittest.TestCase):
    def answers(self, data, lumps):
        out, err = piped(lumps)
        self.assertEqual(err, "")
        self.assertEqual(out, model.printout(data))

    def test_lumps_come_one_by_one(self):
        out, into = lumped_pipe()
        for lump in (b"a", b"bc"):
            os.write(into, lump)
        self.assertEqual([os.read(out, 9), os.read(out, 9)], [b"a", b"bc"])
        os.close(out)
        os.close(into)

    def test_stored(self):
        for name in ("four_wells", "field_32", "block_32", "block_33"):
            data = sample(name + ".job")
            self.assertEqual(model.printout(data).encode(), sample(name + ".txt"), name)
            self.answers(data, [data])
        self.assertEqual(sample("block_33.txt"), b"refused 17 at 0\n")

    def test_single_bytes(self):
        for name in ("block_32.job", "block_33.job"):
            data = sample(name)
            self.answers(data, cut(data, [1]))

    def test_odd_lumps(self):
        data = sample("block_32.job")
        for sizes in ([7], [19, 1], [20, 25, 3], [26], [511], [64, 1, 333]):
            self.answers(data, cut(data, sizes))

    def test_each_front(self):
        data = sample("block_32.job")
        for end in (0, 1, 2, 19, 20, 21, 45, 46, 47, 64, 825, 826, 851):
            self.answers(data[:end], cut(data[:end], [13]))

    def test_longer_than_the_list(self):
        block = sample("block_32.job")
        line = b"ST" + struct.pack("<BIIIBI", 1, 2, 1, 2, 1, 2) + (b"PT" + struct.pack("<d", 1.0)) * 200
        for data in (block + b"\0" * 4096, sample("block_33.job") + b"PT" * 4096, line):
            self.assertGreater(len(data), LIST)
            self.assertEqual(model.printout(data), model.printout(data[:DECISIVE]))
            self.answers(data, cut(data, [4096]))
            self.answers(data, cut(data, [100]))

    def test_as_long_as_the_list(self):
        data = (sample("block_33.job") + b"\0" * LIST)[:LIST]
        for end in (LIST - 1, LIST):
            self.answers(data[:end], [data[:end]])

    def test_input_that_cannot_be_read(self):
        folder = os.open(ROOT, os.O_RDONLY)
        run = subprocess.run([PROGRAM], stdin=folder, capture_output=True, timeout=60)
        os.close(folder)
        self.assertEqual(run.stdout, b"")
        self.assertTrue(run.stderr.startswith(b"standard input: "), run.stderr)

    def test_input_that_is_closed(self):
        run = subprocess.run([PROGRAM], preexec_fn=lambda: os.close(0), capture_output=True, timeout=60)
        self.assertEqual(run.stdout, b"")
        self.assertTrue(run.stderr.startswith(b"standard input: "), run.stderr)

    def test_output_that_cannot_be_written(self):
        with open("/dev/full", "wb") as full:
            run = subprocess.run([PROGRAM], input=sample("block_32.job"), stdout=full, stderr=subprocess.PIPE, timeout=60)
        self.assertTrue(run.stderr.startswith(b"standard output: "), run.stderr)


class Stored(unittest.TestCase):
    def test_the_gate_runs_the_block(self):
        for mine, theirs in (("stdin", "block_32.job"), ("stdout", "block_32.txt")):
            with open(os.path.join(ROOT, "crates", "ddm_tree", mine), "rb") as f:
                self.assertEqual(f.read(), sample(theirs))


if __name__ == "__main__":
    unittest.main()
