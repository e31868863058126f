"""The legend of a picture: a sign and its words, one after the other, in as many lines as it takes."""
from drawing import svg
from drawing.labels import width

SIGN, GAP, LINE = 26, 18, 19


def sign(kind, x, y):
    """The sign itself, its middle at the left of (x + SIGN / 2, y)."""
    if kind == "outline":
        return svg.circle(x + 13, y, 5, fill="white", stroke="#333", stroke_width=1.5)
    if kind == "filled":
        return svg.circle(x + 13, y, 5, fill="#333", stroke="#333", stroke_width=1.5)
    if kind == "dashed":
        return svg.line(x + 1, y, x + 25, y, stroke="#333", stroke_dasharray="3 3")
    if kind == "box":
        return svg.rect((x + 4, y - 6, x + 22, y + 6), fill="#1b6ca8", fill_opacity=0.08, stroke="#1b6ca8")
    if kind == "grey":
        return svg.circle(x + 13, y, 1.6, fill="#bbb")
    if kind == "pale":
        return svg.circle(x + 13, y, 1.4, fill="#8ab")
    if kind == "dark":
        return svg.circle(x + 13, y, 2.1, fill="#111")
    return svg.circle(x + 13, y, 4.5, fill="none", stroke="#c00", stroke_width=0.8)


def legend(entries, left, top, right):
    """The legend's parts, and where it ends below."""
    out, x, y = [], left, top
    for kind, words in entries:
        wide = SIGN + width(words, 11) + GAP
        if x > left and x + wide > right:
            x, y = left, y + LINE
        out += [sign(kind, x, y), svg.text(x + SIGN + 3, y + 4, words, class_="legend")]
        x += wide
    return out, y + LINE
