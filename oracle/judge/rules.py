"""The rules that tournaments vary, and the English values: what the second judge plays by."""
from collections import Counter
from dataclasses import dataclass

KINDS = "ABCDEFGHIJKLMNOPQRSTUVWXYZ?"
RACK, SIDE = 7, 15


@dataclass(frozen=True)
class Rules:
    """How many tiles of each kind there are, the points of letters, the premiums of squares (row and column, from 0), and the
    parameters. A blank has no points, and a plain square no premium."""

    tiles: Counter
    points: dict
    premiums: dict
    bonus: int = 50
    exchange_min: int = 7
    zero_limit: int = 6
    challenge_unit: int = 5
    time_step: int = 5

    def bag(self):
        """How many tiles are in the bag once both players have drawn."""
        return self.tiles.total() - 2 * RACK

    def worth(self, tiles):
        """The points of some tiles."""
        return sum(self.points.get(tile, 0) for tile in tiles)


COUNTS = Counter(dict(zip(KINDS, [9, 2, 2, 4, 12, 2, 3, 2, 9, 1, 1, 4, 2, 6, 8, 2, 1, 6, 4, 6, 4, 2, 2, 1, 2, 1, 2])))
POINTS = {
    letter: points
    for letters, points in [("AEILNORSTU", 1), ("DG", 2), ("BCMP", 3), ("FHVWY", 4), ("K", 5), ("JX", 8), ("QZ", 10)]
    for letter in letters
}

# Premium squares by row and columns, as the tables of the game have them.
ROWS: dict[str, list[tuple[tuple[int, ...], str]]] = {
    "TW": [((1, 15), "AHO"), ((8,), "AO")],
    "DW": [((2, 14), "BN"), ((3, 13), "CM"), ((4, 12), "DL"), ((5, 11), "EK"), ((8,), "H")],
    "TL": [((2, 14), "FJ"), ((6, 10), "BFJN")],
    "DL": [((1, 15), "DL"), ((3, 13), "GI"), ((4, 12), "AHO"), ((7, 9), "CGIM"), ((8,), "DL")],
}
PREMIUMS = {
    (row - 1, ord(column) - ord("A")): premium for premium, squares in ROWS.items() for rows, columns in squares for row in rows for column in columns
}

ENGLISH = Rules(COUNTS, POINTS, PREMIUMS)
