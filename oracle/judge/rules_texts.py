"""A slow second reading of rules texts, as docs/RULES.md has them: the rules that a text means, or its first fault.

It shares nothing with the program, and serves to compare what both say of the same bytes.
"""
import re
from collections import Counter

from rules import KINDS, SIDE, Rules

BOM = b"\xef\xbb\xbf"
MOST_BYTES, MOST_TILES = 65_536, 200
PREMIUM_OF = {"d": "DL", "t": "TL", "D": "DW", "T": "TW"}
PARAMETERS = ["bonus", "exchange_min", "zero_limit", "challenge_unit", "time_step"]
# Of each first field how many fields its line has.
FIELDS = {b"tile": 4, b"row": 3} | {name.encode(): 2 for name in PARAMETERS}
WANTED = {("tile", kind) for kind in KINDS} | {("row", number) for number in range(1, SIDE + 1)} | {(name,) for name in PARAMETERS}


class Fault(Exception):
    """The first fault of a rules text: its line, 0 for none, and its name."""

    def __init__(self, line, why):
        super().__init__(line, why)
        self.line, self.why = line, why

    def text(self):
        where = f" line {self.line}" if self.line else ""
        return f"bad rules{where}: {self.why}\n".encode()


def lines(text):
    """The lines of a text that say something, with their numbers, each as its fields."""
    for number, line in enumerate(text.removeprefix(BOM).split(b"\n"), 1):
        fields = [field for field in re.split(rb"[ \t]+", line.removesuffix(b"\r")) if field]
        if fields and not line.startswith(b"#"):
            yield number, fields


def number(field):
    return int(field) if re.fullmatch(rb"[0-9]{1,3}", field) else None


def name_of(fields):
    """What a line is about: a kind of tile, a row with its codes, or a parameter. None where it names none."""
    if fields[0] == b"tile":
        return ("tile", fields[1].decode()) if re.fullmatch(rb"[A-Z?]", fields[1]) else None
    if fields[0] == b"row":
        is_row = re.fullmatch(rb"[0-9]{1,2}", fields[1]) and 1 <= int(fields[1]) <= SIDE
        return ("row", int(fields[1])) if is_row and re.fullmatch(rb"[.dtDT]{15}", fields[2]) else None
    return (fields[0].decode(),)


def values_of(name, fields):
    """The numbers or the codes that a line gives. None where a number is none."""
    if name[0] == "row":
        return fields[2].decode()
    numbers = [number(field) for field in fields[2 if name[0] == "tile" else 1 :]]
    if None in numbers or (name == ("tile", "?") and numbers[1] != 0):
        return None
    return numbers


def entry(line, fields, entries):
    """Takes the line of a tile, a row or a parameter among those before it."""
    wanted = FIELDS.get(fields[0])
    if wanted is None:
        raise Fault(line, "Unknown")
    if len(fields) != wanted:
        raise Fault(line, "Fields")
    name = name_of(fields)
    if name is None:
        raise Fault(line, "Name")
    values = values_of(name, fields)
    if values is None:
        raise Fault(line, "Number")
    if name in entries:
        raise Fault(line, "Twice")
    entries[name] = values


def is_within(rules):
    """Whether rules keep the limits."""
    most = [(rules.points, 99), (rules.tiles, MOST_TILES)]
    small = (rules.exchange_min, rules.zero_limit, rules.challenge_unit, rules.time_step)
    counts = all(value <= limit for values, limit in most for value in values.values())
    return counts and 14 <= rules.tiles.total() <= MOST_TILES and rules.bonus <= 999 and all(1 <= it <= 99 for it in small)


def read(text):
    """The rules that a text means."""
    if len(text) > MOST_BYTES:
        raise Fault(0, "TooLong")
    entries = {}
    for line, fields in lines(text):
        entry(line, fields, entries)
    if entries.keys() != WANTED:
        raise Fault(0, "Missing")
    tiles = Counter({kind: entries["tile", kind][0] for kind in KINDS})
    points = {kind: entries["tile", kind][1] for kind in KINDS[:-1]}
    codes = {(row, column): code for row in range(SIDE) for column, code in enumerate(entries["row", row + 1])}
    premiums = {square: PREMIUM_OF[code] for square, code in codes.items() if code != "."}
    rules = Rules(tiles, points, premiums, *(entries[name,][0] for name in PARAMETERS))
    if not is_within(rules):
        raise Fault(0, "Limits")
    return rules


def text_of(rules):
    """A text that means these rules: tiles, rows and parameters, one a line."""
    code_of = {premium: code for code, premium in PREMIUM_OF.items()}
    told = [f"tile {kind} {rules.tiles[kind]} {rules.points.get(kind, 0)}" for kind in KINDS]
    for row in range(SIDE):
        codes = (code_of.get(rules.premiums.get((row, column)), ".") for column in range(SIDE))
        told.append(f"row {row + 1} {''.join(codes)}")
    told += [f"{name} {getattr(rules, name)}" for name in PARAMETERS]
    return "".join(f"{line}\n" for line in told).encode()
