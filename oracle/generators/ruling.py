"""Random rules, the many texts that mean them, and texts with a fault."""
import random
from collections import Counter
from dataclasses import replace

from dealing import likely
from rules import ENGLISH, KINDS, SIDE
from rules_texts import MOST_TILES, PARAMETERS, text_of

choose = random.choice
LIMITS = {"bonus": (0, 999), "exchange_min": (1, 99), "zero_limit": (1, 99), "challenge_unit": (1, 99), "time_step": (1, 99)}
FIELDS = [b"tile", b"tiles", b"row", b"bonus", b"Bonus", b"time_step", b"#", b"?", b"a", b"A", b"AA", b"0", b"00", b"000", b"0000"]
FIELDS += [b"1", b"15", b"016", b"16", b"99", b"100", b"200", b"201", b"999", b"1000", b"+5", b"-1", b"5.0", b"x", b"\xff", b"\r"]
FIELDS += [b"...............", b"..............", b"TTTTTTTTTTTTTTTT", b"dtDTdtDTdtDTdtD", b"DtTw...........", b"***************"]
LINES = [b"tile ? 2 1", b"tile ? 2 0", b"tile A 9 1", b"tiles A 9 1", b"tile A 9", b"tile", b"row 8 T..d...D...d..T", b"row 0 ..............."]
LINES += [b"row 16 ...............", b"row", b"bonus 50", b"bonus", b"bonus 50 50", b"bonus x", b"name English", b" # not a remark"]


def some_tiles():
    """How many tiles there are of each kind: 14 to 200 in all."""
    what = random.random()
    if what < 0.2:
        return ENGLISH.tiles
    if what < 0.5:
        return Counter({kind: 2 * count for kind, count in ENGLISH.tiles.items()})
    kinds = "".join(random.sample(KINDS, random.randint(1, 12))) if likely(0.5) else "AEINRST?"
    return Counter(random.choices(kinds, k=choose([14, 14, 15, 17, 20, 30, 60, 100, 101, 150, 200, MOST_TILES])))


def some_points():
    most = choose([0, 1, 10, 99, 99])
    return ENGLISH.points if likely(0.4) else {kind: choose([most, random.randint(0, most)]) for kind in KINDS[:-1]}


def some_premiums():
    if likely(0.4):
        return ENGLISH.premiums
    kinds = choose([["TW"], ["DL", "TL"], ["DL", "TL", "DW", "TW"], ["DW", None], [None], ["DL", "TW", None, None, None]])
    squares = {(row, column): choose(kinds) for row in range(SIDE) for column in range(SIDE)}
    return {square: premium for square, premium in squares.items() if premium}


def some_parameters():
    """The English parameters, with some of them changed: often a little, so that games meet them."""
    changed = {name: random.randint(*LIMITS[name]) for name in PARAMETERS if likely(0.2)}
    near = {"bonus": 35, "exchange_min": choose([1, 2, 3, 20]), "zero_limit": random.randint(1, 8)}
    return changed | {name: value for name, value in near.items() if likely(0.4)}


def random_rules():
    return replace(ENGLISH, tiles=some_tiles(), points=some_points(), premiums=some_premiums(), **some_parameters())


def another_text(rules):
    """A text that means rules: lines in any order, remarks, empty lines, runs of spaces and tabs, noughts in front, line ends."""
    lines = text_of(rules).splitlines()
    if likely(0.7):
        random.shuffle(lines)
    if likely(0.5):
        lines = [another_line(line) for line in lines]
        for _ in range(random.randint(0, 4)):
            lines.insert(random.randint(0, len(lines)), choose([b"", b"#", b"# tile A 9 1", b"#\xff", b" ", b"\t \t"]))
    end = choose([b"\n", b"\r\n"])
    return choose([b"", b"\xef\xbb\xbf"]) + end.join(lines) + choose([b"", end])


def another_line(line):
    name, *fields = line.split(b" ")
    if likely(0.3):
        most = 2 if name == b"row" else 3
        fields = [field.zfill(random.randint(1, most)) if field.isdigit() else field for field in fields]
    gap = choose([b" ", b"  ", b"\t", b" \t "])
    return choose([b"", b"", gap]) + gap.join([name, *fields]) + choose([b"", b"", gap])


def with_field(line):
    """A line with a field changed, one more or one less."""
    fields = line.split(b" ")
    at, how = random.randrange(len(fields)), random.random()
    if how < 0.7:
        fields[at] = choose(FIELDS)
    elif how < 0.85:
        fields.insert(at + choose([0, 1]), choose(FIELDS))
    else:
        del fields[at]
    return b" ".join(fields)


def with_byte(line):
    """A line with one byte changed."""
    at = random.randrange(len(line)) if line else 0
    return line[:at] + bytes([choose([random.randrange(256), *b"0123456789? \t.dtDT#"])]) + line[at + 1 :]


def damaged_text(rules):
    """A text with a few changes, most of which are faults."""
    lines = text_of(rules).splitlines()
    for _ in range(choose([1, 1, 1, 2, 3])):
        at, how = random.randrange(len(lines)), random.random()
        if how < 0.4:
            lines[at] = with_field(lines[at])
        elif how < 0.6:
            lines[at] = with_byte(lines[at])
        elif how < 0.75:
            lines.insert(at + choose([0, 1]), choose([choose(LINES), choose(lines)]))
        elif how < 0.85:
            del lines[at]
        else:
            random.shuffle(lines)
    return b"\n".join(lines) + b"\n"
