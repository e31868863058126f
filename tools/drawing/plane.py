"""The map from coordinates to a picture: two axes (or one) in a frame, and the marks along each axis."""
import math

PAD = 32          # room between the frame and the outermost wells
MOST_STRETCH = 6  # spans up to this ratio are drawn to one scale


def spread(low, high):
    """How far two bounds are apart, as a pair (halves, span): spans too large for a float are measured in halves."""
    span = high - low
    return (0.5, high * 0.5 - low * 0.5) if math.isinf(span) else (1.0, span)


class Axis:
    """One axis of a picture: from a coordinate to a position from 0 to 1."""

    def __init__(self, name, values):
        self.name, self.low, self.high = name, min(values), max(values)
        self.unit, self.span = spread(self.low, self.high)

    def share(self, value):
        if self.span == 0:
            return 0.5
        return (value * self.unit - self.low * self.unit) / self.span


class Plane:
    """A frame of `wide` by `high` at (left, top), with x to the right and y upwards; `flat` is its height for wells on a line."""

    def __init__(self, columns, axes, left, top, size, flat):
        self.axes = axes
        self.x = Axis("xyz"[axes[0]], columns[axes[0]])
        self.y = Axis("xyz"[axes[1]], columns[axes[1]]) if len(axes) > 1 else None
        self.left, self.top, self.wide, self.high = left, top, size, size if self.y else flat
        self.stretch = 0.0   # how many tenfolds y is drawn larger than x
        inner = size - 2 * PAD
        self.reach = [inner, inner if self.y else 0]
        if self.y and self.x.span and self.y.span and self.x.unit == self.y.unit:
            self.fit(inner)

    def fit(self, inner):
        """One scale for both axes where that leaves both readable; otherwise each fills the frame."""
        ratio = self.y.span / self.x.span
        if 1 / MOST_STRETCH <= ratio <= MOST_STRETCH:
            self.reach = [inner, inner * ratio] if ratio <= 1 else [inner / ratio, inner]
            self.high = self.reach[1] + 2 * PAD
            self.wide = self.reach[0] + 2 * PAD
        else:
            self.stretch = math.log10(self.x.span) - math.log10(self.y.span)

    def at(self, point):
        """The place of a point in the picture."""
        x = self.left + self.wide / 2 + (self.x.share(point[self.axes[0]]) - 0.5) * self.reach[0]
        if self.y is None:
            return x, self.top + self.high / 2
        return x, self.top + self.high / 2 - (self.y.share(point[self.axes[1]]) - 0.5) * self.reach[1]

    def held(self, x, y, edge):
        """A place held inside the frame."""
        return (min(max(x, self.left + edge), self.left + self.wide - edge), min(max(y, self.top + edge), self.top + self.high - edge))

    def note(self):
        """What has to be said of the scales."""
        if self.stretch == 0.0:
            return ""
        large, small = (self.y, self.x) if self.stretch > 0 else (self.x, self.y)
        tenfolds = abs(self.stretch)
        times = f"{10 ** tenfolds:,.0f}" if tenfolds < 9 else f"1e{tenfolds:.0f}"
        return f"{large.name} is drawn {times} times as large as {small.name}"


def ticks(axis, most=6):
    """Round numbers along an axis, not more than about `most`."""
    if axis.span == 0:
        return [axis.low]
    if axis.unit != 1.0 or axis.span < 1e-290:
        return [axis.low, axis.high]
    step = 10.0 ** math.floor(math.log10(axis.span / most))
    step = next(step * k for k in (1, 2, 5, 10) if axis.span / (step * k) <= most)
    first = math.ceil(axis.low / step)
    marks = [(first + i) * step for i in range(most + 2)]
    marks = sorted({m for m in marks if axis.low <= m <= axis.high})
    return marks if len(marks) > 1 else [axis.low, axis.high]


def spelt(marks):
    """The marks in as few digits as keep them apart."""
    for digits in range(10, 18):
        words = [f"{m:.{digits}g}" for m in marks]
        if len(set(words)) == len(set(marks)) and all(abs(float(w) - m) <= 1e-9 * abs(m) for w, m in zip(words, marks)):
            return words
    return [repr(m) for m in marks]
