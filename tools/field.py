#!/usr/bin/env python3
"""Builds the tree of a field of wells with the library: from a CSV table to a summary and one picture per level.

The table has the form that make_job.py --help shows (settings, a head such as 'well,x,y', the wells), with up to 1,048,576 wells and 64
neighbours; --columns reads any other table that has a head. The folder gets level0.svg, level1.svg, .. and summary.txt, which has the
wall sheet's lines: A the settings and what they come to, B who owns each well, C what each leaf sends up. Line B has the leaves per depth,
which is how often a leaf was cut from its level. Line C has the greatest cover of each level, by which the factor is set: how far the worst
well that stays is from the nearest one of its leaf that goes up.

--store FILE keeps the tree beside that, and --load FILE takes it from there instead of building it: only for the settings and wells that it
was built for, bit for bit.

It needs the shared library, which python/make_shared.sh makes. A build that will take long is announced, and what it is at is said on
standard error.
where not given: leaf 256, neighbours 16, factor 128, coarse auto (the wells / 32, at least 512 and at most 4,096).
exit status: 0 made, 1 the table or the stored tree is refused (what is wrong is said), 2 wrong use.
"""
import sys

import estimate
from drawing.picture import Field
from output import namer, put_out
from progress import with_progress
from reading import command, settings as job_settings
from wrong import Wrong, WrongUse, run

import rekvashu


def announce(table, settings):
    """Says what will be built, and the time that it will take. Returns that time in words."""
    sizes = job_settings.level_sizes(settings, len(table))
    time = estimate.seconds(sizes, table.dimension, settings["leaf"], settings["neighbours"])
    if time > estimate.LONG:
        lent = 8 * sum(rekvashu.build_sizes(len(table), table.dimension, settings["neighbours"]).values())
        print(f"{len(table):,} wells, levels of {', '.join(f'{size:,}' for size in sizes)}: about {estimate.spelt(time)} (lists of "
              f"{lent / 1e6:,.0f} MB are lent, of which a small part is touched)", file=sys.stderr, flush=True)
    return estimate.spelt(time)


def loaded(table, settings, path):
    """The tree of a table, from the file that it was stored in."""
    try:
        with open(path, "rb") as file:
            data = file.read()
    except OSError as error:
        raise WrongUse(f"{path}: {error.strerror}") from None
    return rekvashu.load(table.coordinates, data, **settings, dimension=table.dimension)


def built(table, settings):
    """The tree of a table, built."""
    about = announce(table, settings)
    return with_progress(lambda: rekvashu.build(table.coordinates, **settings, dimension=table.dimension), about)


def store(tree, path):
    try:
        with open(path, "wb") as file:
            file.write(tree.to_bytes())
    except OSError as error:
        raise WrongUse(f"{path}: {error.strerror}") from None


def tree_of(table, settings, args):
    """The tree of a table, stored where that is asked."""
    try:
        tree = loaded(table, settings, args.load) if args.load else built(table, settings)
        if args.store:
            store(tree, args.store)
        return tree
    except rekvashu.LibraryError as error:
        raise WrongUse(str(error)) from None
    except rekvashu.Refusal as refusal:
        raise Wrong(str(refusal)) from None


def work(argv):
    parser = command.options("field.py", __doc__)
    parser.add_argument("-o", "--output", metavar="FOLDER", default=".", help="where the pictures go (where not given: here)")
    parser.add_argument("--store", metavar="FILE", help="keep the tree in this file")
    parser.add_argument("--load", metavar="FILE", help="take the tree from this file instead of building it")
    parser.add_argument("--links", action="store_true", help="draw what each leaf borrows (up to 150 wells)")
    parser.add_argument("--rows", action="store_true", help="write rows instead of the table's names")
    args = parser.parse_intermixed_args(argv)
    table, settings, taken = command.table_of(args, job_settings.LIBRARY)
    field = Field(table.dimension, table.coordinates, tree_of(table, settings, args).levels, namer(table, args.rows))
    put_out(args.output, field, settings, args.links, taken)


def main(argv):
    return run("field.py", work, argv)


if __name__ == "__main__":
    sys.exit(main(sys.argv[1:]))
