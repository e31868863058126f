"""The part of a command that all tools which read a table share: its options, its table and its settings."""
import argparse
import sys

from reading import settings as job_settings, wells
from rekvashu.version import VERSION
from wrong import Wrong, WrongUse


def options(tool, text):
    """The options that all tools which read a table share."""
    parser = argparse.ArgumentParser(prog=tool, description=text, formatter_class=argparse.RawDescriptionHelpFormatter)
    parser.add_argument("table", metavar="TABLE", help="the CSV table of wells")
    parser.add_argument("--version", action="version", version=f"{tool} {VERSION}")
    parser.add_argument("--columns", metavar="NAME,X[,Y[,Z]]",
                        help="read these columns of the table instead of well,x,y,z ('-' for no names), and pass over the others")
    for name, words in job_settings.NAMES.items():
        parser.add_argument(f"--{name}", metavar="N", help=f"the {words} (where not given: {job_settings.DEFAULTS[name]})")
    return parser


def columns_of(args):
    """The columns that a command asks for, or None."""
    columns = None if args.columns is None else args.columns.split(",")
    if columns is not None and not 2 <= len(columns) <= 4:
        raise WrongUse("--columns names the wells' names and one to three axes, as in --columns id,easting,northing")
    return columns


def settings_of(args):
    """The settings that are given as options."""
    try:
        return {name: job_settings.Setting(job_settings.value_of(name, value, f"--{name}"), f"--{name}")
                for name, value in vars(args).items() if name in job_settings.NAMES and value is not None}
    except Wrong as wrong:
        raise WrongUse(str(wrong)) from None


def table_of(args, limits):
    """The table of a command, all settings, refused where the build would refuse them, and the names of those taken, which are said."""
    from_options = settings_of(args)
    try:
        table = wells.read(args.table, limits, columns_of(args))
        given = {**table.settings, **from_options}
        settings = job_settings.taken(given)
        job_settings.refuse(settings, len(table), limits)
    except Wrong as wrong:
        raise Wrong(f"{args.table}, {wrong}") from None
    notes = [f"columns passed over: {', '.join(table.passed)}"] if table.passed else []
    for note in notes + job_settings.notes(given, job_settings.values(settings), len(table)):
        print(note, file=sys.stderr)
    return table, job_settings.values(settings), job_settings.not_given(given)
