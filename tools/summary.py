"""A tree in the wall sheet's three lines: A the settings and what they come to, B who owns each well, C what each leaf sends up and how
far that leaves the others."""
import math
from collections import Counter

from reading import settings as job_settings
from rows import rows_of


def summary(values, dimension, levels, name, taken=(), most=None):
    """The summary as text. name: a row's well in words. taken: settings that were not given. most: detail lines of a level."""
    wells = len(levels[0].points)
    out = [f"{counted(wells, 'well', 'wells')}, {counted(dimension, 'axis', 'axes')}, {counted(len(levels), 'level', 'levels')}", ""]
    out += ["A  Settings"] + settings_lines(values, wells, taken)
    out += ["", "B  Who owns each well"]
    for number, level in enumerate(levels):
        out += owner_lines(number, level, name, number + 1 == len(levels), most)
    out += ["", "C  Wells sent up"]
    for number, (level, above) in enumerate(zip(levels, levels[1:])):
        out += sent_lines(number, level, above, name, most)
    out.append(f"   level {len(levels) - 1} is the coarse level: it sends nothing up")
    return "\n".join(out) + "\n"


def settings_lines(values, wells, taken):
    def shown(name):
        return f"{name} {values[name]}" + (" (not given)" if name in taken else "")
    c = job_settings.threshold(values, wells)
    sizes = ", ".join(map(str, job_settings.level_sizes(values, wells)))
    out = ["   as given: " + ", ".join(map(shown, job_settings.NAMES)),
           f"   come to:  coarse threshold {c}, factor {values['factor']}, levels of {sizes} wells"]
    if c >= wells:
        out.append("   the coarse threshold is not below the wells: there is one coarse level and no leaves")
    return out


def span(numbers):
    """Least and most of some counts, in words."""
    return f"least {min(numbers)}, most {max(numbers)}"


def shares(sizes):
    """Least and most, and how many leaves have each size where they differ and the sizes are few."""
    times = sorted(Counter(sizes).items())
    each = ", ".join(f"{size} in {counted(leaves, 'leaf', 'leaves')}" for size, leaves in times)
    return span(sizes) + (f" ({each})" if 1 < len(times) <= 6 else "")


def counted(number, one, many):
    return f"{number:,} {one if number == 1 else many}"


def owner_lines(number, level, name, coarse, most):
    """Line B of a level: wells per leaf, each well that has no leaf or more than one, what is borrowed, and the leaves per depth."""
    active, own = rows_of(level.points), [rows_of(leaf.own) for leaf in level.leaves]
    wrong = misplaced(active, own, name)
    where = "the one domain of the coarse level" if coarse else f"{counted(len(own), 'leaf', 'leaves')}, wells a leaf: " \
        + shares([len(rows) for rows in own])
    verdict = "NOT each well has exactly one leaf:" if wrong else "each well has exactly one leaf"
    out = [f"   level {number}: {counted(len(active), 'well', 'wells')} in {where}; {verdict}"] + details(wrong, most)
    if not coarse:
        lent = [len(leaf.borrowed) for leaf in level.leaves]
        out.append(f"      borrowed: {sum(lent):,} in all, a leaf: {span(lent)}")
        out.append("      " + depth_line([leaf.depth for leaf in level.leaves]))
    return out


def depth_line(depths):
    """How many leaves of a level were cut how often."""
    return "leaves per depth: " + ", ".join(f"{leaves:,} at depth {depth}" for depth, leaves in sorted(Counter(depths).items()))


def misplaced(active, own, name):
    """Each well that no leaf or more than one owns, by name, with its leaves; and wells that are owned without being active."""
    times = Counter(row for rows in own for row in rows)
    due = set(active)
    out = [f"in no leaf: {name(row)}" for row in active if row not in times]
    for row in sorted(row for row, count in times.items() if count > 1 or row not in due):
        leaves = " and ".join(str(leaf) for leaf, rows in enumerate(own) for r in rows if r == row)
        out.append(f"in {'leaf' if times[row] == 1 else 'leaves'} {leaves}{'' if row in due else ', but not active'}: {name(row)}")
    return out


def sent_lines(number, level, above, name, most):
    """Line C of a level: wells sent up per leaf, the greatest cover, and the leaves that send none, with their wells."""
    up = set(rows_of(above.points))
    own = [rows_of(leaf.own) for leaf in level.leaves]
    sent = [sum(1 for row in rows if row in up) for rows in own]
    out = [f"   level {number}: {len(up):,} of {counted(len(level.points), 'well', 'wells')} go up, a leaf: {shares(sent)}"]
    out.append("      " + cover_line([leaf.cover for leaf in level.leaves], sent))
    silent = [leaf for leaf, count in enumerate(sent) if count == 0]
    if silent:
        wells = sum(len(own[leaf]) for leaf in silent)
        out.append(f"      {counted(len(silent), 'leaf sends', 'leaves send')} none; above this level nobody hears their "
                   f"{counted(wells, 'well', 'wells')}:")
        out += details([f"leaf {leaf}: {', '.join(map(name, own[leaf])) or 'no wells'}" for leaf in silent], most)
    return out


def cover_line(covers, sent):
    """The greatest cover of a level, by which the factor is set, with its leaf; where it is infinite, why, and the greatest of the others."""
    infinite = [leaf for leaf, cover in enumerate(covers) if cover == math.inf]
    greatest = max((cover for cover in covers if cover < math.inf), default=None)
    known = "" if greatest is None else f"{greatest:.6g}, in leaf {covers.index(greatest)}"
    if not infinite:
        return f"greatest cover {known}: no well is farther than that from one that its leaf sends up"
    silent = sum(1 for leaf in infinite if sent[leaf] == 0)
    far = len(infinite) - silent
    why = [counted(silent, "leaf with wells sends none", "leaves with wells send none")] if silent else []
    if far:
        why.append("in " + counted(far, "leaf", "leaves") + " the distances are too large for a 64-bit float")
    return f"greatest cover infinite: {', and '.join(why)}" + (f"; among the other leaves {known}" if known else "")


def details(lines, most):
    """Lines of detail, not more than `most` of them."""
    shown = lines if most is None or len(lines) <= most else lines[:most] + [f".. and {len(lines) - most:,} more: summary.txt has all"]
    return ["      " + line for line in shown]
