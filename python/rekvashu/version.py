"""The version of the package and of the tools. A library of another major or minor version is not loaded."""
MAJOR, MINOR, PATCH = 0, 9, 0
VERSION = f"{MAJOR}.{MINOR}.{PATCH}"
NUMBER = MAJOR * 10000 + MINOR * 100 + PATCH


def fits(number):
    """Whether a library that says this number (major * 10000 + minor * 100 + patch) has the lists that the package reads."""
    return number // 100 == NUMBER // 100


def spelt(number):
    return f"{number // 10000}.{number // 100 % 100}.{number % 100}"
