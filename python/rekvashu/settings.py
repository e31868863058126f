"""The settings of a build: their values where none are given, their limits, and the test that a value fits its C type."""
import operator
import reprlib

LEAF, NEIGHBOURS, FACTOR, COARSE = 256, 16, 128, "auto"

MOST_POINTS = 1_048_576
MOST_NEIGHBOURS = 64
MOST_UINT32 = 2 ** 32 - 1
MOST_SIZE = 2 ** 64 - 1

POLICY_AUTO, POLICY_FIXED = 0, 1


def whole(name, value, most):
    """The value as a whole number from 0 to most. ctypes would wrap what does not fit: here it is an error."""
    try:
        if isinstance(value, bool):
            raise TypeError
        number = operator.index(value)
    except TypeError:
        raise TypeError(f"{name} is {reprlib.repr(value)}, and has to be a whole number") from None
    if not 0 <= number <= most:
        raise ValueError(f"{name} is {reprlib.repr(number)}, and has to be from 0 to {most}")
    return number


def uint32(name, value):
    return whole(name, value, MOST_UINT32)


def size(name, value):
    return whole(name, value, MOST_SIZE)


def policy_of(coarse):
    """The coarse setting as the library takes it: (policy, threshold)."""
    if isinstance(coarse, str):
        if coarse.lower() != "auto":
            raise ValueError(f"coarse is {coarse!r}, and has to be 'auto' or a whole number")
        return POLICY_AUTO, 0
    return POLICY_FIXED, uint32("coarse", coarse)
