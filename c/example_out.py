"""What c/example.c prints (and c/lists.c but for the line of a well), by tools/model.py, which shares nothing with the library:

    python3 c/example_out.py > c/example.out
"""
import os
import sys

sys.path.insert(0, os.path.join(os.path.dirname(os.path.abspath(__file__)), "..", "tools"))
import model
import stored_model

WELLS, AXES, NEAR, WELL = 1000, 2, 8, 500

state, points = 12345, []
for _ in range(AXES * WELLS):
    state = (state * 1103515245 + 12345) % 2 ** 32
    points.append((state >> 8) % 100000 / 100.0)

levels = model.build(points, AXES, 32, NEAR, 4, 1, 60)
print("levels", len(levels))
for number, (rows, leaves) in enumerate(levels):
    own = sorted(i for leaf in leaves for i in leaf[0])
    assert own == rows, "the leaves do not share out the level"
    print("level %d: %d wells in %d leaves, at most %d a leaf, %d borrowed; own wells %d; greatest cover %.2f; depths %d to %d" % (
        number, len(rows), len(leaves), max(len(leaf[0]) for leaf in leaves), sum(len(leaf[1]) for leaf in leaves), len(own),
        max(leaf[3] for leaf in leaves), min(leaf[4] for leaf in leaves), max(leaf[4] for leaf in leaves)))

rows, steps, leaf = list(range(WELLS)), [], [WELL in leaf[0] for leaf in levels[0][1]].index(True)
while True:
    axis, plane, left, right = model.halves(points, AXES, rows)
    steps.append("%s of %s %.2f" % ("left" if WELL in left else "right", "xy"[axis], plane))
    if len(rows) < 2 * 32:
        break
    rows = left if WELL in left else right
print("well %d: %s, leaf %d; the record has %d nodes" % (
    WELL, ", ".join(steps), leaf, len(model.record(points, AXES, 32, levels[0][0]))))

settings, bits = (AXES, 32, NEAR, 4, 1, 60), stored_model.bits_of(points)
file = stored_model.file_bytes(settings, bits, stored_model.built(settings, bits))
print("file of %d bytes, loaded again: levels %d" % (len(file), len(stored_model.read_file(file)[2])))
