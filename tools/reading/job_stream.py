"""The job stream of the program ddm_tree: bytes from settings and coordinates, and back."""
import array
import struct
from collections import namedtuple

from wrong import Wrong

SETTINGS, POINT = b"ST", b"PT"
HEAD = struct.Struct("<2sBIIIBI")

# settings: name to value. coordinates: one after the other, `dimension` of them for each well.
Job = namedtuple("Job", "settings dimension coordinates")


def pack(job):
    """The job stream."""
    coarse = job.settings["coarse"]
    policy, number = (0, 0) if coarse == "auto" else (1, coarse)
    head = HEAD.pack(SETTINGS, job.dimension, job.settings["leaf"], job.settings["neighbours"], job.settings["factor"], policy, number)
    flat, d = job.coordinates, job.dimension
    return head + b"".join(POINT + struct.pack(f"<{d}d", *flat[at:at + d]) for at in range(0, len(flat), d))


def unpack(data):
    """The job of a whole stream."""
    if len(data) < HEAD.size or data[:2] != SETTINGS:
        raise Wrong("the job stream is not whole: it has no settings record at its start (refusal 16)")
    _, dimension, leaf, neighbours, factor, policy, number = HEAD.unpack_from(data)
    if policy > 1 or (policy == 0 and number):
        raise Wrong("the job stream is broken: its settings have a policy that is neither Auto nor Fixed (refusal 16)")
    if dimension not in (1, 2, 3):
        raise Wrong(f"the job stream's dimension is {dimension}, and has to be 1, 2 or 3 (refusal 1)")
    size, coordinates = len(POINT) + 8 * dimension, array.array("d")
    for at in range(HEAD.size, len(data), size):
        record = data[at:at + size]
        if len(record) != size or record[:2] != POINT:
            raise Wrong(f"the job stream is broken or cut: no whole point record at byte {at} (refusal 16)")
        coordinates.extend(struct.unpack(f"<{dimension}d", record[2:]))
    return Job({"leaf": leaf, "neighbours": neighbours, "factor": factor, "coarse": number if policy else "auto"}, dimension, coordinates)
