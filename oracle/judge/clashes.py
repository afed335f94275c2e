"""Which tiles and lines cannot be together, by the second judge: what the program names is read back, and checked.

Which of several clashes is named is the program's choice. It is right if each of its lines shows these tiles, and if no deal gives them even
where the lines show nothing else of racks. That is found anew, as `settlings.py` finds it: some kinds count as one and all others as another,
and how many tiles of the one can be on each rack is followed from place to place. Which kinds these are is tried: those that some turns show.
"""
import re
from collections import Counter
from dataclasses import replace
from itertools import product

from rules import KINDS
from settlings import shows_none

ALONE = "Even if only these tiles were shown, no deal would give them:"
NOTHING = "Even if no rack were shown, no deal would give the plays and the exchanges."
BEHIND = "Compare the racks with the exchanges:"


def told_in(text):
    """The lines and tiles of a clash that a text of the program names; none where it names none."""
    if ALONE in text:
        part = text.split(ALONE)[1].split(BEHIND)[0]
        return [(int(line), tiles) for line, tiles in re.findall(r"line ([0-9]+) shows ([A-Z?]+) on ", part)]
    return [] if NOTHING in text else None


def told_of(place):
    """The tiles that a line shows of a rack."""
    return Counter(place.event.tiles if place.event.kind == "rack" else place.event.rack if place.holder is not None else "")


def telling(place, tiles):
    """A place whose line shows only these tiles of a rack; a last rack shows all of it, or it is not shown."""
    if place.event.kind == "rack":
        return place if tiles else replace(place, holder=None, need=None)
    if place.holder is None:
        return place
    event = replace(place.event, rack=tiles)
    return replace(place, event=event, need=Counter(tiles) | place.used | place.throws())


def shown_alone(places, lines, clash):
    """The places of which only the lines of a clash tell something of racks, and only these tiles; none where a line does not show them."""
    told = dict(clash)
    if len(told) < len(clash) or [line for line, _ in clash] != [line for line in lines if line in told]:
        return None
    for line, tiles in clash:
        place = places[lines.index(line)]
        whole = told_of(place)
        if not tiles or not Counter(tiles) <= whole or (place.event.kind == "rack" and Counter(tiles) != whole):
            return None
    return [telling(place, told.get(line, "")) for place, line in zip(places, lines)]


def some_kinds(places, turns):
    """Kinds that may be counted: those that some turns show and the others do not; the rest are counted all, or not at all, or where they are
    used."""
    used = {kind for place in places for kind in place.used | place.throws()}
    for counts in product((True, False), repeat=min(len(turns), 10)):
        within = {kind for tiles, it in zip(turns, counts) if it for kind in tiles}
        beside = {kind for tiles, it in zip(turns, counts) if not it for kind in tiles}
        if not within & beside:
            free = set(KINDS) - within - beside
            yield from (within, within | free, within | free & used, within | free - used)
            yield from (within | {kind} for kind in free)


def is_clash(places, lines, tiles, clash):
    """Whether the tiles of these lines already cannot be together."""
    alone = shown_alone(places, lines, clash)
    if alone is None:
        return False
    turns = [place.event.rack for place in alone if place.event.kind != "rack" and place.holder is not None and place.event.rack]
    return any(shows_none(alone, tiles, kinds) for kinds in some_kinds(places, turns))


class AnyClash:
    """Equal to each list of a clash in an object that is right."""

    def __init__(self, places, lines, tiles):
        self.places, self.lines, self.tiles = places, lines, tiles

    def __eq__(self, told):
        players = {line: 1 + place.holder for line, place in zip(self.lines, self.places) if place.holder is not None}
        if not isinstance(told, list) or any(it.keys() != {"line", "player", "shown"} or players.get(it["line"]) != it["player"] for it in told):
            return False
        return is_clash(self.places, self.lines, self.tiles, [(it["line"], it["shown"]) for it in told])

    def __repr__(self):
        return "a clash"
