"""How every tool ends: what is wrong is one sentence on standard error, never a traceback. 0 made, 1 refused, 2 wrong use."""
import os
import sys

MADE, REFUSED, WRONG_USE = 0, 1, 2


class Wrong(Exception):
    """What is wrong with the input, in words, with the line where it stands."""


class WrongUse(Exception):
    """What is wrong with the command: an option, or a file that can't be read or written."""


def cannot(what, path, error):
    """The sentence for a file that can't be read or written."""
    return WrongUse(f"{path} can't be {what}: {getattr(error, 'strerror', None) or error}")


def write_bytes(path, data):
    """Writes bytes to a file."""
    try:
        with open(path, "wb") as f:
            f.write(data)
    except (OSError, ValueError) as error:
        raise cannot("written", path, error) from None


def read_bytes(path):
    try:
        with open(path, "rb") as f:
            return f.read()
    except (OSError, ValueError) as error:
        raise cannot("read", path, error) from None


def run(tool, work, argv):
    """Runs a tool's work and gives its exit status."""
    for stream in (sys.stdout, sys.stderr):
        if hasattr(stream, "reconfigure"):
            stream.reconfigure(errors="backslashreplace")
    try:
        work(argv)
        sys.stdout.flush()
    except Wrong as wrong:
        print(f"{tool}: {wrong}", file=sys.stderr)
        return REFUSED
    except WrongUse as wrong:
        print(f"{tool}: {wrong}", file=sys.stderr)
        return WRONG_USE
    except MemoryError as error:
        print(f"{tool}: not enough memory {error}", file=sys.stderr)
        return WRONG_USE
    except OSError as error:
        # standard output is full, or whoever read it has read enough; what is left of it goes nowhere
        os.dup2(os.open(os.devnull, os.O_WRONLY), 1)
        if not isinstance(error, BrokenPipeError):
            print(f"{tool}: {error}", file=sys.stderr)
        return WRONG_USE
    except KeyboardInterrupt:
        print(f"{tool}: stopped", file=sys.stderr)
        return 130
    return MADE
