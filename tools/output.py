"""What the viewers hand out: pictures and a summary in a folder, and the summary on the screen."""
import os
import sys

from drawing.picture import picture
from summary import summary
from wrong import cannot, write_bytes

SHOWN = 20   # detail lines of a level on the screen; the file has all


def namer(table, rows):
    """The words for a row: the table's name for it, or the row."""
    if table is None or table.names is None or rows:
        return str
    return table.names.__getitem__


def put_out(folder, field, settings, with_links, taken=()):
    """Writes one picture per level and the summary, and prints the summary."""
    try:
        os.makedirs(folder, exist_ok=True)
    except (OSError, ValueError) as error:
        raise cannot("made", folder, error) from None
    for number in range(len(field.levels)):
        write_bytes(os.path.join(folder, f"level{number}.svg"), picture(field, number, with_links).encode("utf-8"))
    said = settings, field.dimension, field.levels, field.name, taken
    write_bytes(os.path.join(folder, "summary.txt"), summary(*said).encode("utf-8"))
    sys.stdout.write(summary(*said, most=SHOWN))
