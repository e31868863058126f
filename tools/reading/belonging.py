"""Whether a job and a printout, or a job and a table, belong together."""
import math

import model
from reading import settings
from wrong import Wrong

APART = "the job and the printout do not belong together"


def check_tree(job, levels):
    """Refuses levels that can't be those of the job: rows, dimension, the outer box of level 0, the sizes of the levels."""
    wells = len(job.coordinates) // job.dimension
    refuse_job(job, wells)
    if levels[0].points != list(range(wells)):
        raise Wrong(f"{APART}: the job has the wells 0 to {wells - 1}, and level 0 of the printout has "
                    f"{len(levels[0].points)} rows, up to {max(levels[0].points, default='none')}")
    check_rows(levels, wells)
    check_boxes(job, levels)
    due, sizes = settings.level_sizes(job.settings, wells), [len(level.points) for level in levels]
    if due != sizes:
        raise Wrong(f"{APART}: the job's settings come to levels of {commas(due)} wells, and the printout has {commas(sizes)}")


def commas(numbers):
    return ", ".join(map(str, numbers))


def refuse_job(job, wells):
    """Refuses a job that the program would have refused: then the tree is another's."""
    given = {name: settings.Setting(value, "the job") for name, value in job.settings.items()}
    try:
        if wells == 0:
            raise Wrong("the job has no wells")
        settings.refuse(given, wells, settings.PROGRAM)
        if not all(map(math.isfinite, job.coordinates)):
            raise Wrong(f"the job has a coordinate that is not finite {settings.refusal(10)}")
    except Wrong as wrong:
        raise Wrong(f"{APART}: the printout is a tree, and the program refuses this job; {wrong}") from None


def check_rows(levels, wells):
    """Refuses a row that no well of the job has."""
    for number, level in enumerate(levels):
        rows = [row for leaf in level.leaves for row in (*leaf.own, *leaf.borrowed)]
        top = max((*rows, *level.points), default=0)
        if top >= wells:
            raise Wrong(f"{APART}: level {number} of the printout names row {top}, and the job has the rows 0 to {wells - 1}")


def check_boxes(job, levels):
    """Refuses boxes of another dimension, and an outer box of level 0 that is not that of the wells."""
    d = job.dimension
    low, high = model.bounds(job.coordinates, d, range(len(job.coordinates) // d))
    reach = f"{APART}: the wells of the job reach from {low} to {high}"
    for number, level in enumerate(levels[:-1]):
        for leaf, (lower, upper) in enumerate(leaf.box for leaf in level.leaves):
            if len(lower) != d or len(upper) != d:
                raise Wrong(f"{APART}: the job has {d} axes, and a box of the printout has {len(lower) + len(upper)} bounds")
            if not all(low[a] <= lower[a] <= upper[a] <= high[a] for a in range(d)):
                raise Wrong(f"{reach}, and leaf {leaf} of level {number} from {lower} to {upper}")
    if len(levels) > 1:
        first = [leaf.box for leaf in levels[0].leaves]
        outer = [min(b[0][a] for b in first) for a in range(d)], [max(b[1][a] for b in first) for a in range(d)]
        if outer != (low, high):
            raise Wrong(f"{reach}, and the leaves of level 0 from {outer[0]} to {outer[1]}")


def check_table(job, table):
    """Refuses a table whose wells are not those of the job."""
    if table.dimension != job.dimension or len(table.coordinates) != len(job.coordinates):
        raise Wrong(f"the job and the table do not belong together: the job has {len(job.coordinates) // job.dimension} wells with "
                    f"{job.dimension} axes, and the table {len(table)} with {table.dimension}")
    for at, (a, b) in enumerate(zip(job.coordinates, table.coordinates)):
        if a != b or math.copysign(1, a) != math.copysign(1, b):
            row = at // job.dimension
            raise Wrong(f"the job and the table do not belong together: the well of line {table.lines[row]} of the table is row {row}, "
                        f"and the job has it elsewhere")


def named_refusal(refused, job, name):
    """A refusal in words, with the well where its place is a coordinate."""
    if refused.number != 10 or refused.place >= len(job.coordinates):
        return refused
    row, axis = divmod(refused.place, job.dimension)
    return Wrong(f"{refused}: it is {'xyz'[axis]} of the well {name(row)}")
