"""Places labels in a picture so that none covers another, a well, or the frame."""
import math

WIDE = {c: w for w, cs in ((0.32, " .,:;'|!ijlI"), (0.45, "()[]{}/\\-tfr\"°"), (0.66, "0123456789abcdeghknopqsuvxyz_+=<>~^*?$#"),
                           (0.80, "ABCDEFGHJKLNOPQRSTUVXYZ&w"), (1.0, "MWm@%…")) for c in cs}
ANGLES = [-45, 45, -135, 135, 0, 180, -90, 90, -22, 22, -157, 157, -67, 67, -112, 112]
RINGS = [2, 8, 16, 26, 38, 52, 70, 92, 118, 150, 190, 240, 300, 380]
SQUARE = 40
NEAR = 16  # beyond this a thin line joins the label to its place


def width(text, size):
    """The width of a text, on the safe side."""
    return size * sum(WIDE.get(c, 0.8 if ord(c) < 0x1100 else 1.05) for c in text)


def shortened(text, most=16):
    """A long name by its start and its end, which tells wells of one kind apart."""
    return text if len(text) <= most else text[:most // 2] + "…" + text[-(most - most // 2 - 1):]


class Placer:
    """What is taken of a frame: rectangles (left, top, right, bottom), kept by the squares that they touch."""

    def __init__(self, left, top, right, bottom):
        self.frame, self.taken = (left, top, right, bottom), {}

    def squares(self, box):
        for i in range(int(box[0] // SQUARE), int(box[2] // SQUARE) + 1):
            for j in range(int(box[1] // SQUARE), int(box[3] // SQUARE) + 1):
                yield i, j

    def take(self, *box):
        for square in self.squares(box):
            self.taken.setdefault(square, []).append(box)

    def free(self, box):
        left, top, right, bottom = self.frame
        if box[0] < left or box[1] < top or box[2] > right or box[3] > bottom:
            return False
        return not any(box[0] < t[2] and t[0] < box[2] and box[1] < t[3] and t[1] < box[3]
                       for square in self.squares(box) for t in self.taken.get(square, ()))

    def put(self, wide, high, middles):
        """Takes the first free rectangle of this size around one of the middles: its middle, or None."""
        for x, y in middles:
            box = (x - wide / 2, y - high / 2, x + wide / 2, y + high / 2)
            if self.free(box):
                self.take(*box)
                return x, y
        return None


    def beside(self, x, y, wide, high, mark):
        """Takes the first free rectangle beside a mark of this radius: near ones first, then any of the frame."""
        return self.put(wide, high, around(x, y, wide, high, mark)) or self.put(wide, high, self.anywhere(x, y, wide, high))

    def anywhere(self, x, y, wide, high):
        """Middles all over the frame, those near a place first."""
        left, top, right, bottom = self.frame
        across, down = int((right - left - wide) // 8), int((bottom - top - high) // 4)
        middles = [(left + wide / 2 + 8 * i, top + high / 2 + 4 * j) for i in range(across) for j in range(down)]
        return sorted(middles, key=lambda m: math.hypot(m[0] - x, m[1] - y))


def around(x, y, wide, high, mark):
    """Middles of a label around a mark of this radius, near ones first."""
    for ring in RINGS:
        for angle in ANGLES:
            c, s = math.cos(math.radians(angle)), math.sin(math.radians(angle))
            yield x + c * (mark + ring + wide / 2), y + s * (mark + ring + high / 2)


def inside(box, wide, high):
    """Middles of a label inside a box, the corners first, then a grid."""
    left, top, right, bottom = box
    dx, dy = (right - left) - wide, (bottom - top) - high
    if dx < 0 or dy < 0:
        return
    for sx, sy in ((0.02, 0.02), (0.98, 0.02), (0.02, 0.98), (0.98, 0.98)):
        yield left + wide / 2 + sx * dx, top + high / 2 + sy * dy
    for i in range(9):
        for j in range(9):
            yield left + wide / 2 + j / 8 * dx, top + high / 2 + i / 8 * dy
