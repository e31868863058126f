"""The leaves of a level in a picture. A leaf without width is drawn as a narrow strip, so that it stays visible."""
from collections import Counter

from drawing import svg

COLOURS = ["#1b6ca8", "#b5651d", "#2e7d32", "#7b1fa2", "#c2185b", "#00838f", "#5d4037", "#455a64"]
LEAST = 6       # pixels: nothing is drawn narrower
HALF_FLAT = 34  # half the height of a leaf of wells on a line
GROW = 60       # leaves that share a place are drawn around each other, up to this far


def colour(leaf):
    return COLOURS[leaf % len(COLOURS)]


def boxes(plane, leaves):
    """The rectangle of each leaf in the picture: (left, top, right, bottom)."""
    raw = [corners(plane, leaf.box) for leaf in leaves]
    same, met, out = Counter(raw), Counter(), []
    for box in raw:
        step = min(4.0, GROW / same[box]) * met[box]
        met[box] += 1
        out.append(widened(box, step))
    return out


def corners(plane, bounds):
    lower, upper = [list(map(float, bound)) for bound in bounds]
    (left, bottom), (right, top) = plane.at(lower), plane.at(upper)
    if plane.y is None:
        top, bottom = top - HALF_FLAT, bottom + HALF_FLAT
    return left, top, right, bottom


def widened(box, step):
    """A rectangle a little inside its bounds, so that neighbours' outlines lie side by side; never narrower than it can be seen."""
    left, top, right, bottom = box

    def pair(a, b):
        if b - a >= LEAST:
            return a + 0.8 + min(step, (b - a) / 3), b - 0.8 - min(step, (b - a) / 3)
        middle = (a + b) / 2
        return middle - LEAST / 2 - step, middle + LEAST / 2 + step
    left, right = pair(left, right)
    top, bottom = pair(top, bottom)
    return left, top, right, bottom


def drawn(leaf, box, thin, tint):
    return svg.rect(box, svg.title(f"leaf {leaf}"), fill=colour(leaf), fill_opacity=tint, stroke=colour(leaf),
                    stroke_width=0.6 if thin else 1.1, class_="leaf")


def links(plane, points, leaf, box, borrowed, places):
    """A dashed line from a leaf's middle to each well that it borrows; for wells on a line, a bow above them."""
    x, y = (box[0] + box[2]) / 2, (box[1] + box[3]) / 2
    out = []
    for row in borrowed:
        to = places.get(row) or plane.at(points(row))
        path = f"M{svg.n(x)} {svg.n(y)}L{svg.n(to[0])} {svg.n(to[1])}"
        if plane.y is None:
            lift = box[1] - min(60.0, 12 + abs(to[0] - x) / 4)
            path = f"M{svg.n(x)} {svg.n(box[1])}Q{svg.n((x + to[0]) / 2)} {svg.n(lift)} {svg.n(to[0])} {svg.n(to[1])}"
        out.append(svg.element("path", d=path, fill="none", stroke=colour(leaf), stroke_dasharray="3 3", stroke_width=0.8,
                               stroke_opacity=0.8, class_="link"))
    return out
