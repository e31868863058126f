#!/usr/bin/env python3
"""Draws a tree: from a job stream and the program's printout of it, one SVG picture per level (level0.svg, ..) and a summary
(summary.txt; also printed).

With the TABLE that the job was made from, wells carry its names, otherwise their rows. A picture shows the active wells, the leaves'
boxes with their numbers, and, filled, the wells that are sent up to the next level; --links adds a dashed line from each leaf's middle
to each well that it borrows. Three axes are shown as three projections. Above 150 wells a well is a dot without a name.

The summary has the wall sheet's lines: A the settings and what they come to, B who owns each well, C what each leaf sends up. Line B has
the leaves per depth, which is how often a leaf was cut from its level. Line C has the greatest cover of each level, by which the factor is
set: how far the worst well that stays is from the nearest one of its leaf that goes up.
exit status: 0 made, 1 refused (a printout that is not whole, that does not belong to the job, or that is a refusal), 2 wrong use.
"""
import argparse
import sys

from drawing.picture import Field
from output import namer, put_out
from reading import belonging, command, job_stream, tree_text, wells
from reading.settings import PROGRAM
from rekvashu.version import VERSION
from wrong import Wrong, read_bytes, run


def options():
    parser = argparse.ArgumentParser(prog="view_tree.py", description=__doc__, formatter_class=argparse.RawDescriptionHelpFormatter)
    parser.add_argument("job", metavar="JOB", help="the job stream")
    parser.add_argument("printout", metavar="PRINTOUT", help="what the program printed for it")
    parser.add_argument("table", metavar="TABLE", nargs="?", help="the table that the job was made from, for the wells' names")
    parser.add_argument("-o", "--output", metavar="FOLDER", default=".", help="where the pictures go (where not given: here)")
    parser.add_argument("--links", action="store_true", help="draw what each leaf borrows")
    parser.add_argument("--rows", action="store_true", help="write rows instead of the table's names")
    parser.add_argument("--columns", metavar="NAME,X[,Y[,Z]]", help="the columns of the table, as for make_job.py")
    parser.add_argument("--version", action="version", version=f"view_tree.py {VERSION}")
    return parser


def table_of(args, job):
    """The table of a job, or None."""
    if args.table is None:
        return None
    try:
        table = wells.read(args.table, PROGRAM, command.columns_of(args))
    except Wrong as wrong:
        raise Wrong(f"{args.table}, {wrong}") from None
    belonging.check_table(job, table)
    return table


def work(argv):
    args = options().parse_intermixed_args(argv)
    job = job_stream.unpack(read_bytes(args.job))
    table = table_of(args, job)
    name = namer(table, args.rows)
    try:
        levels = tree_text.read(tree_text.text_from(read_bytes(args.printout)))
    except tree_text.Refused as refused:
        raise belonging.named_refusal(refused, job, name) from None
    belonging.check_tree(job, levels)
    put_out(args.output, Field(job.dimension, job.coordinates, levels, name), job.settings, args.links)


def main(argv):
    return run("view_tree.py", work, argv)


if __name__ == "__main__":
    sys.exit(main(sys.argv[1:]))
