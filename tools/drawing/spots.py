"""Where wells stand in a picture. Nested wells, which share a place or nearly so, are fanned out around it."""
import math

APART = 5    # wells that stand nearer than this in the picture are nested
TURN = 2.4   # the angle from one fanned well to the next
FAN = 10     # how far the first stands from the place


def spots(plane, points, rows):
    """The place of each row, and the places that nested wells share: ({row: (x, y)}, {row: (x, y) of the true place})."""
    piles = []
    for row in rows:
        x, y = plane.at(points(row))
        near = next((pile for pile in piles if math.hypot(pile[0] - x, pile[1] - y) < APART), None)
        if near is None:
            piles.append((x, y, [row]))
        else:
            near[2].append(row)
    placed, nested = {}, {}
    for x, y, together in piles:
        if len(together) == 1:
            placed[together[0]] = (x, y)
            continue
        for k, row in enumerate(together):
            far = FAN * math.sqrt(k + 1)
            placed[row] = plane.held(x + far * math.cos(TURN * k), y + far * math.sin(TURN * k), FAN)
            nested[row] = (x, y)
    return placed, nested


def crowded(plane, points, rows):
    """The true places at which more than one well stands."""
    seen, many = set(), set()
    for row in rows:
        point = points(row)
        (many if point in seen else seen).add(point)
    return sorted(plane.at(point) for point in many)
