"""The settings of a job: read from words, taken where none are given, and refused where the build would refuse them."""
import re
from collections import namedtuple

import model
from rekvashu import settings as library
from rekvashu.refusals import REFUSALS
from wrong import Wrong

NAMES = {"leaf": "leaf threshold", "neighbours": "neighbour count", "factor": "factor", "coarse": "coarse threshold"}
DEFAULTS = {"leaf": library.LEAF, "neighbours": library.NEIGHBOURS, "factor": library.FACTOR, "coarse": library.COARSE}
MOST_DIGITS = 20

# A value, and where it was given: a line and column of the table, or an option.
Setting = namedtuple("Setting", "value where")
# What a job may have, and the refusal of one that has more.
Limits = namedtuple("Limits", "wells wells_refusal neighbours neighbours_refusal")
PROGRAM = Limits(32, 17, 16, 17)
LIBRARY = Limits(library.MOST_POINTS, 8, library.MOST_NEIGHBOURS, 5)


def refusal(number):
    return f"(refusal {number}: {REFUSALS[number][0]})"


def value_of(name, text, where):
    """The value of a setting: a whole number of 32 bits in ASCII digits, or auto."""
    text = text.strip()
    if name == "coarse" and text.lower() == "auto":
        return "auto"
    whole = re.fullmatch(r"[0-9]{1,%d}" % MOST_DIGITS, text)
    if not whole or int(text) > library.MOST_UINT32:
        what = "auto or a whole number" if name == "coarse" else "a whole number"
        shown = text if len(text) <= 40 else text[:40] + ".."
        raise Wrong(f"{where}: the {NAMES[name]} is {shown!r}, and has to be {what} from 0 to {library.MOST_UINT32}")
    return int(text)


def not_given(settings):
    """The names of the settings that have to be taken."""
    return [name for name in NAMES if name not in settings]


def taken(settings):
    """All settings: as given, and the values taken for the others."""
    return {name: settings.get(name, Setting(DEFAULTS[name], "not given")) for name in NAMES}


def values(settings):
    return {name: setting.value for name, setting in settings.items()}


def threshold(values, wells):
    """The coarse threshold that the settings come to."""
    coarse = values["coarse"]
    return model.threshold(0, 0, wells) if coarse == "auto" else coarse


def level_sizes(values, wells):
    """The wells of each level that the settings come to."""
    c = threshold(values, wells)
    k, sizes = model.reductions(wells, c, values["factor"]), [wells]
    while sizes[-1] > c:
        sizes.append(model.level_size(sizes[-1], c, max(1, k - len(sizes) + 1)))
    return sizes


def refuse(settings, wells, limits):
    """Refuses, in words and in the build's order, what the build would refuse of these settings for so many wells."""
    leaf, neighbours, factor, coarse = (settings[name] for name in NAMES)
    if leaf.value == 0:
        raise Wrong(f"{leaf.where}: the leaf threshold is 0, and has to be from 1 up {refusal(2)}")
    if factor.value < 2:
        raise Wrong(f"{factor.where}: the factor is {factor.value}, and has to be from 2 up {refusal(3)}")
    if coarse.value == 0:
        raise Wrong(f"{coarse.where}: the coarse threshold is 0, and has to be auto or from 1 up {refusal(4)}")
    if neighbours.value > limits.neighbours:
        raise Wrong(f"{neighbours.where}: {neighbours.value} neighbours, and the most are {limits.neighbours} "
                    f"{refusal(limits.neighbours_refusal)}")
    c = threshold(values(settings), wells)
    if c * factor.value ** 3 < wells:
        # the line of the table that can be mended, or else the option
        where = min(factor.where, coarse.where, key=lambda w: (not w.startswith("line"), w == "not given"))
        raise Wrong(f"{where}: the coarse threshold {c} times the factor {factor.value} three times over is "
                    f"{c * factor.value ** 3}, below the {wells} wells: raise one of the two {refusal(9)}")


def notes(given, all_values, wells):
    """What a user should hear of the settings: those taken, and a threshold that leaves one coarse level only."""
    out = [f"{name} not given: {all_values[name]}" for name in not_given(given)]
    c = threshold(all_values, wells)
    if c >= wells:
        auto = " (auto is at least 512)" if all_values["coarse"] == "auto" else ""
        out.append(f"warning: the coarse threshold is {c}{auto}, which is not below the {wells} wells: the tree will be one coarse "
                   "level, without leaves; give a smaller coarse")
    return out
