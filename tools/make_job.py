#!/usr/bin/env python3
"""Turns a CSV table of wells into a job stream for the program ddm_tree.

The table, in UTF-8, cells separated by commas, one record a line:

    leaf,2               settings, one a line, before the head (or given as options, which win)
    neighbours,1
    factor,2
    coarse,2             auto, or a whole number
    well,x,y             the head: the axes x, or x and y, or x, y and z; a column `well` names the wells
    W1,0.5,1.25          the wells, one a line; the first is row 0
    W2,3,7

Empty lines are passed over, and before the head lines that begin with #. Two wells can't have one name.

limits: 32 wells, 16 neighbours (tools/field.py takes 1,048,576 and 64); leaf from 1 up, factor from 2 up, coarse auto or from 1 up,
all below 4,294,967,296; the coarse threshold times the factor three times over at least the wells.
where not given: leaf 256, neighbours 16, factor 128, coarse auto (the wells / 32, at least 512 and at most 4,096: a class of 32 wells
sees one coarse level then, so give a small coarse).
exit status: 0 made, 1 the table is refused (what is wrong is said with its line, and nothing is written), 2 wrong use.
"""
import sys

from reading import command, job_stream
from reading.settings import PROGRAM
from wrong import run, write_bytes


def work(argv):
    parser = command.options("make_job.py", __doc__)
    parser.add_argument("-o", "--output", metavar="JOB", help="where the job stream goes (where not given: standard output)")
    args = parser.parse_intermixed_args(argv)
    table, settings, _ = command.table_of(args, PROGRAM)
    data = job_stream.pack(job_stream.Job(settings, table.dimension, table.coordinates))
    if args.output:
        write_bytes(args.output, data)
    else:
        sys.stdout.buffer.write(data)


def main(argv):
    return run("make_job.py", work, argv)


if __name__ == "__main__":
    sys.exit(main(sys.argv[1:]))
