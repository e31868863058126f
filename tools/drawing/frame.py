"""The frame of a picture's panel: its axes with their marks and names."""
from drawing import svg
from drawing.labels import width
from drawing.plane import spelt, ticks

LEFT, RIGHT, TOP, BOTTOM = 70, 16, 44, 46   # room around the frame
MARK, GREY, SIZE = 5, "#666", 10


def frame(plane):
    """The frame, the marks along x below it and along y to its left, and the axes' names."""
    box = (plane.left, plane.top, plane.left + plane.wide, plane.top + plane.high)
    out = [svg.rect(box, fill="none", stroke=GREY, stroke_width=0.8)]
    out += marks_below(plane, box)
    if plane.y is not None:
        out += marks_left(plane, box)
    return out


def marks_below(plane, box):
    marks = ticks(plane.x)
    out, end = [], float("-inf")
    for mark, words in zip(marks, spelt(marks)):
        x, half = box[0] + plane.wide / 2 + (plane.x.share(mark) - 0.5) * plane.reach[0], width(words, SIZE) / 2
        out.append(svg.line(x, box[3], x, box[3] + MARK, stroke=GREY))
        if x - half > end:
            out.append(svg.text(x, box[3] + 17, words, font_size=SIZE, fill=GREY, text_anchor="middle", class_="axis"))
            end = x + half + 6
    note = plane.note()
    out.append(svg.text(box[0] + plane.wide / 2, box[3] + 34, plane.x.name + (f" ({note})" if note else ""), fill=GREY,
                        text_anchor="middle", class_="axis"))
    return out


def marks_left(plane, box):
    marks, out = ticks(plane.y), []
    for mark, words in zip(marks, spelt(marks)):
        y = box[1] + plane.high / 2 - (plane.y.share(mark) - 0.5) * plane.reach[1]
        out.append(svg.line(box[0] - MARK, y, box[0], y, stroke=GREY))
        out.append(svg.text(box[0] - MARK - 3, y + 3.5, words, font_size=SIZE, fill=GREY, text_anchor="end", class_="axis"))
    out.append(svg.text(box[0] - MARK - 3, box[1] - 8, plane.y.name, fill=GREY, text_anchor="end", class_="axis"))
    return out
