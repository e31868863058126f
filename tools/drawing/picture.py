"""A level of a tree as an SVG picture: its wells, its leaves, and what is sent up. Three axes are shown as three projections."""
from drawing import svg
from drawing.frame import BOTTOM, LEFT, RIGHT, TOP, frame
from drawing.labels import NEAR, Placer, inside, shortened, width
from drawing.leaf_boxes import boxes, colour, drawn, links
from drawing.legend import legend
from drawing.plane import Plane
from drawing.spots import crowded, spots
from rows import rows_of

MOST_LABELLED = 150   # above this many wells: dots without labels
PROJECTIONS = {1: [(0,)], 2: [(0, 1)], 3: [(0, 1), (0, 2), (1, 2)]}
RADIUS, LABEL, NUMBER = 5, 11, 12
SMALL = (11, 8, 6, 4, 3, 2, 1.2, 0.8)   # sizes of a leaf's number among dots
HALO = {"stroke": "white", "stroke_width": 3, "paint_order": "stroke", "stroke_linejoin": "round"}


class Field:
    """What pictures are made of: the wells, the levels, and the words for a row."""

    def __init__(self, dimension, coordinates, levels, name):
        self.dimension, self.coordinates, self.levels, self.name = dimension, coordinates, levels, name
        self.columns = [coordinates[a::dimension] for a in range(dimension)]
        self.tint = "0.06" if dimension < 3 else "0.015"   # projections lie upon each other
        self.dots = len(self.columns[0]) > MOST_LABELLED

    def point(self, row):
        return tuple(self.coordinates[row * self.dimension:(row + 1) * self.dimension])

    def size(self):
        """The side of a frame: more wells need more room for their names."""
        wells = len(self.columns[0])
        if self.dots:
            return 1000 if self.dimension < 3 else 760
        return 560 if wells <= 40 else 760 if wells <= 90 else 1000

    def flat(self):
        """The height of a frame for wells on a line."""
        return 250 if self.dots else self.size() * (0.45 if self.size() < 1000 else 0.7)


class Drawn:
    """One level, ready to be drawn: rows as plain numbers."""

    def __init__(self, field, number):
        level = field.levels[number]
        self.number, self.active = number, rows_of(level.points)
        self.coarse = number + 1 == len(field.levels)
        self.leaves, self.own = level.leaves, [rows_of(leaf.own) for leaf in level.leaves]
        self.sent = set() if self.coarse else set(rows_of(field.levels[number + 1].points))
        self.owner = {row: leaf for leaf, rows in enumerate(self.own) for row in rows}


def picture(field, number, with_links=False):
    """The SVG of one level."""
    level, planes, left = Drawn(field, number), [], LEFT
    for axes in PROJECTIONS[field.dimension]:
        planes.append(Plane(field.columns, axes, left, TOP, field.size(), field.flat()))
        left += planes[-1].wide + RIGHT + LEFT
    high = max(plane.high for plane in planes)
    for plane in planes:
        plane.high = high
    parts = [svg.text(12, 20, heading(level), font_size=14)]
    for plane in planes:
        parts += frame(plane) + (dotted(field, level, plane) if field.dots else labelled(field, level, plane, with_links))
    wide = max(left - LEFT, 520)
    signs, end = legend(entries(field, level, with_links), 12, TOP + high + BOTTOM + 10, wide - RIGHT)
    return svg.document(wide, end, parts + signs)


def heading(level):
    wells = f"{len(level.active):,} {'well' if len(level.active) == 1 else 'wells'}"
    if level.coarse:
        return f"level {level.number}, the coarse level: {wells} in domain 0, which has no box"
    return f"level {level.number}: {wells} in {len(level.leaves):,} leaves, {len(level.sent):,} sent up"


def entries(field, level, with_links):
    """What the legend has to explain."""
    if level.coarse:
        out = [("dark" if field.dots else "outline", "a well of the coarse domain")]
    elif field.dots:
        out = [("box", "a leaf and its number"), ("pale", "a well"), ("dark", "a well that is sent up")]
    else:
        out = [("box", "a leaf and its number"), ("outline", "outline: a well that stays"), ("filled", "filled: a well that is sent up")]
        if with_links:
            out.append(("dashed", "dashed: from a leaf to a well that it borrows"))
    if field.dots and len({field.point(row) for row in level.active}) < len(level.active):
        out.append(("ring", "ring: several wells at one place"))
    elif not field.dots and len(level.active) < len(field.columns[0]):
        out.append(("grey", "a well that is not active on this level"))
    return out


def labelled(field, level, plane, with_links):
    """Wells with their names, leaves with their numbers, no label on another."""
    places, nested = spots(plane, field.point, level.active)
    areas = [] if level.coarse else boxes(plane, level.leaves)
    placer = Placer(plane.left + 2, plane.top + 2, plane.left + plane.wide - 2, plane.top + plane.high - 2)
    for x, y in places.values():
        placer.take(x - RADIUS - 1, y - RADIUS - 1, x + RADIUS + 1, y + RADIUS + 1)
    out = [drawn(i, area, False, field.tint) for i, area in enumerate(areas)]
    if with_links:
        for i, area in enumerate(areas):
            out += links(plane, field.point, i, area, rows_of(level.leaves[i].borrowed), places)
    active = set(level.active)
    out += [svg.circle(*plane.at(field.point(row)), 1.6, fill="#bbb") for row in range(len(field.columns[0])) if row not in active]
    out += [svg.line(*place, *places[row], stroke="#555", stroke_width=0.7) for row, place in nested.items()]
    numbers = [part for i, area in enumerate(areas) for part in leaf_number(placer, i, area)]
    wells = [part for row in level.active for part in well(field, level, row, places[row])]
    names = [part for row in level.active for part in well_name(placer, field, row, places[row])]
    left_out = len(areas) + len(level.active) - sum("<text" in part for part in numbers + names)
    return out + wells + numbers + names + no_room(plane, left_out)


def no_room(plane, labels):
    """Says how many labels could not be placed."""
    if not labels:
        return []
    words = f"{labels} labels have no room: rest the pointer on a well or a leaf"
    return [svg.text(plane.left + plane.wide, plane.top - 6, words, text_anchor="end", fill="#c00", class_="no-room")]


def leaf_colour(level, row):
    return "#333" if level.coarse else colour(level.owner.get(row, 7))


def well(field, level, row, place):
    """A well: filled where it is sent up."""
    tint = leaf_colour(level, row)
    words = f"{field.name(row)} (row {row})"
    return [svg.circle(*place, RADIUS, svg.title(words), fill=tint if row in level.sent else "white", stroke=tint, stroke_width=1.5,
                       class_="well")]


def joined(place, spot, tint):
    """A thin line to a label that had to go far."""
    return [svg.line(*place, *spot, stroke=tint, stroke_width=0.5, stroke_opacity=0.7)]


def leaf_number(placer, leaf, area):
    """A leaf's number, inside it where there is room, otherwise beside it."""
    words = str(leaf)
    wide, high = width(words, NUMBER) + 4, NUMBER + 2
    spot = placer.put(wide, high, inside(area, wide, high))
    if spot is None:
        middle = (area[0] + area[2]) / 2, (area[1] + area[3]) / 2
        spot = placer.beside(*middle, wide, high, min(area[2] - area[0], area[3] - area[1]) / 2)
        if spot is None:
            return []
        line = joined(middle, spot, colour(leaf))
    else:
        line = []
    return line + [svg.text(spot[0], spot[1] + 4.5, words, font_size=NUMBER, font_weight="bold", fill=colour(leaf), text_anchor="middle",
                            class_="leaf-number", **HALO)]


def well_name(placer, field, row, place):
    """A well's name beside it, joined by a thin line where it had to go far."""
    words = shortened(field.name(row))
    wide, high = width(words, LABEL) + 2, LABEL + 1
    spot = placer.beside(*place, wide, high, RADIUS)
    if spot is None:
        return []
    far = max(abs(spot[0] - place[0]) - wide / 2, abs(spot[1] - place[1]) - high / 2) > NEAR
    line = joined(place, spot, "#555") if far else []
    return line + [svg.text(spot[0], spot[1] + 4, words, font_size=LABEL, text_anchor="middle", class_="well-name", **HALO)]


def dotted(field, level, plane):
    """Many wells: a dot each, dark where it is sent up, and a ring where several stand at one place."""
    areas = [] if level.coarse else boxes(plane, level.leaves)
    placer = Placer(plane.left, plane.top, plane.left + plane.wide, plane.top + plane.high)
    out = [drawn(i, area, True, field.tint) for i, area in enumerate(areas)]
    numbers = [part for i, area in enumerate(areas) for part in small_number(placer, i, area)]
    out += numbers + no_room(plane, len(areas) - len(numbers))
    dark = set(level.active) if level.coarse else level.sent
    out += dots(field, plane, [row for row in level.active if row not in dark], "#8ab", 2.2)
    out += dots(field, plane, sorted(dark), "#111", 2.8)
    out += [svg.circle(x, y, 4.5, fill="none", stroke="#c00", stroke_width=0.8, class_="ring")
            for x, y in crowded(plane, field.point, level.active)]
    return out


def small_number(placer, leaf, area):
    """A leaf's number inside it, as large as there is room for: a picture can be magnified."""
    words = str(leaf)
    for size in SMALL:
        wide, high = width(words, size) + 0.2 * size, size
        spot = placer.put(wide, high, inside(area, wide, high))
        if spot is not None:
            return [svg.text(spot[0], spot[1] + 0.36 * size, words, font_size=float(size), fill=colour(leaf), text_anchor="middle",
                             font_weight="bold", class_="leaf-number")]
    return []


def dots(field, plane, rows, tint, size):
    """Dots as one path; wells of one pixel are one dot."""
    places = sorted({(round(x * 2) / 2, round(y * 2) / 2) for x, y in (plane.at(field.point(row)) for row in rows)})
    if not places:
        return []
    path = "".join(f"M{svg.n(x)} {svg.n(y)}h0" for x, y in places)
    return [svg.element("path", d=path, stroke=tint, stroke_width=size, stroke_linecap="round", class_="dots")]
