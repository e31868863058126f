"""What each refusal number means, once, for the package and for the tools."""

SETTER, BRINGER = "whoever sets the station", "whoever brings the points"
CALLER, FEEDER, KEEPER = "the calling program", "whoever feeds the program", "whoever keeps the file"
EDITOR = "whoever edits the table"

# number: (what is wrong, who can mend it)
REFUSALS = {
    1: ("the dimension is not 1, 2 or 3", SETTER),
    2: ("the leaf threshold is 0", SETTER),
    3: ("the factor is below 2", SETTER),
    4: ("the coarse threshold is fixed at 0", SETTER),
    5: ("the neighbour count is above 64", SETTER),
    6: ("there are no points", BRINGER),
    7: ("the coordinate count is no multiple of the dimension (or a point to be added has not one for each axis)", BRINGER),
    8: ("there are more than 1,048,576 points", BRINGER),
    9: ("three reductions by the factor do not reach the coarse threshold (or the asked reductions are 0 or above 3)", SETTER),
    10: ("a coordinate is infinite or not a number", BRINGER),
    11: ("a lent list is too short", CALLER),
    12: ("a domain row's stretch ends past its list", CALLER),
    13: ("the wanted rows or the seed do not fit the rows given", CALLER),
    14: ("the active rows do not outnumber the threshold", CALLER),
    15: ("a negative number or not-a-number has no root", CALLER),
    16: ("the job stream is broken", FEEDER),
    17: ("the job stream has over 32 points or over 16 neighbours", FEEDER),
    18: ("the stored tree is of other settings", SETTER),
    19: ("the stored tree is of other points", BRINGER),
    20: ("the file, or the lists to be stored, hold no sound tree", KEEPER),
    21: ("the table is full", EDITOR),
    22: ("the slot is not live", EDITOR),
    27: ("the table's head does not fit its flags", CALLER),
}

# What the place counts, for the refusals that name one.
PLACES = {10: "coordinate", 16: "byte"}


def text_of(number, place=0):
    """A refusal as one sentence."""
    if number not in REFUSALS:
        return f"refused {number} at {place}: a refusal that this version does not know"
    wrong, mender = REFUSALS[number]
    where = f" ({PLACES[number]} {place}, counted from 0)" if number in PLACES else ""
    return f"refused {number} at {place}: {wrong}{where}; {mender} can mend it"


class Refusal(Exception):
    """A call that the library refused: number, place (0 where none is named) and text."""

    def __init__(self, number, place=0):
        super().__init__(number, place)
        self.number, self.place, self.text = number, place, text_of(number, place)

    def __str__(self):
        return self.text
