"""Reads a printout of the program ddm_tree. The levels have the names of the Python package's: points, leaves, own, borrowed, box, cover,
depth."""
import math
import re
import struct
from collections import namedtuple

from rekvashu.refusals import text_of
from stored_model import MOST_DEPTH, depth_fits
from wrong import Wrong

Level = namedtuple("Level", "points leaves")
# box: the lower and the upper bounds by axis, or None for the coarse domain.
Leaf = namedtuple("Leaf", "own borrowed box cover depth")

ROWS = r"(-|\d{1,20}(?: \d{1,20})*)"
LEVELS = re.compile(r"levels (\d+)", re.ASCII)
LEVEL = re.compile(rf"level (\d+) points {ROWS}", re.ASCII)
FLOAT = "[0-9a-f]{16}"
DOMAIN = re.compile(rf"domain (\d+) internal {ROWS} overlap {ROWS} box (-|{FLOAT}(?: {FLOAT})*)(?: cover ({FLOAT}))?(?: depth (\d{{1,20}}))?",
                    re.ASCII)
REFUSED = re.compile(r"refused (\d{1,20}) at (\d{1,20})", re.ASCII)
NOT_WHOLE = "the printout is not whole"


class Refused(Wrong):
    """The printout is a refusal: its number and place."""

    def __init__(self, number, place):
        super().__init__(f"the program {text_of(number, place)}")
        self.number, self.place = number, place


def text_from(data):
    """The text of a printout's bytes."""
    try:
        return data.decode("ascii").replace("\r\n", "\n")
    except UnicodeDecodeError:
        raise Wrong("the printout is no plain text: the program prints ASCII (a PowerShell '>' makes UTF-16 of it)") from None


def read(text):
    """The levels of a whole printout."""
    if not text.endswith("\n"):
        raise Wrong(f"{NOT_WHOLE}: {'it is empty' if not text else 'its last line does not end'}")
    lines = text.split("\n")[:-1]
    refused = REFUSED.fullmatch(lines[0])
    if refused and len(lines) == 1:
        raise Refused(int(refused.group(1)), int(refused.group(2)))
    head = LEVELS.fullmatch(lines[0])
    if not head:
        raise Wrong("line 1: a printout begins with 'levels' and their number: is this another file?")
    levels = []
    for number, line in enumerate(lines[1:], 2):
        add(levels, number, line)
    whole(levels, head.group(1))
    return levels


def add(levels, number, line):
    """Adds what a line says to the levels."""
    level, domain = LEVEL.fullmatch(line), DOMAIN.fullmatch(line)
    if level and level.group(1) == str(len(levels)):
        levels.append(Level(rows_of(level.group(2)), []))
    elif domain and levels and domain.group(1) == str(len(levels[-1].leaves)):
        levels[-1].leaves.append(Leaf(rows_of(domain.group(2)), rows_of(domain.group(3)), box_of(domain.group(4)),
                                      cover_of(domain.group(5), number), depth_of(domain.group(6), number)))
    else:
        raise Wrong(f"line {number}: this is not the line that has to follow: {NOT_WHOLE}, or was changed")


def rows_of(words):
    return [] if words == "-" else [int(word) for word in words.split(" ")]


def float_of(word):
    return struct.unpack(">d", bytes.fromhex(word))[0]


def box_of(words):
    if words == "-":
        return None
    bounds = [float_of(word) for word in words.split(" ")]
    return bounds[:len(bounds) // 2], bounds[len(bounds) // 2:]


def cover_of(word, number):
    """The cover of the domain on this line."""
    if word is None:
        raise Wrong(f"line {number}: this domain has no cover: {NOT_WHOLE}, or a version before 0.5.0 printed it")
    if math.isnan(float_of(word)):
        raise Wrong(f"line {number}: the cover is not a number: the printout was changed")
    return float_of(word)


def depth_of(word, number):
    """The depth of the domain on this line."""
    if word is None:
        raise Wrong(f"line {number}: this domain has no depth: {NOT_WHOLE}, or a version before 0.6.0 printed it")
    return int(word)


def whole(levels, count):
    """Refuses levels that are not as many as the first line says, that lack domains, or whose depths are not those of a level."""
    if count != str(len(levels)):
        raise Wrong(f"{NOT_WHOLE}: its first line says {count} levels, and it has {len(levels)}")
    for number, level in enumerate(levels):
        coarse = number + 1 == len(levels)
        if len(level.leaves) != 1 if coarse else len(level.leaves) < 2:
            raise Wrong(f"{NOT_WHOLE}: level {number} has {len(level.leaves)} domains")
        if any((leaf.box is None) != coarse for leaf in level.leaves):
            raise Wrong(f"{NOT_WHOLE}: in level {number} a domain has {'a' if coarse else 'no'} box")
        fault = coarse_fault(level) if coarse else depths_fault(level)
        if fault:
            raise Wrong(f"{NOT_WHOLE}, or was changed: in level {number} {fault}")


def coarse_fault(level):
    """What is wrong with the depth of the coarse domain, or None."""
    depth = level.leaves[0].depth
    return f"the coarse domain has depth {depth}, and not 0" if depth else None


def depths_fault(level):
    """What is wrong with the depths of a level's leaves, or None."""
    before = 0
    for number, leaf in enumerate(level.leaves):
        if leaf.depth < before:
            return f"leaf {number} has depth {leaf.depth}, and the leaf before it {before}: depths never fall"
        if leaf.depth > MOST_DEPTH:
            return f"leaf {number} has depth {leaf.depth}, and no leaf is deeper than {MOST_DEPTH}"
        if not depth_fits(len(level.points), len(leaf.own), leaf.depth):
            return f"leaf {number} has {len(leaf.own)} of {len(level.points)} wells, which does not fit its depth {leaf.depth}"
        before = leaf.depth
    return None
