"""A slow second judge of what settles a record: of a deal whether it fits, and of a cut whether it shows that there is none.

The places of a cut are not looked at. What its kinds are to show is found anew: the kinds count as one, all others as another,
and how many tiles of the one can be on each rack is followed from place to place. Where there is no way left, there is no deal.

Of a record that names few kinds it is also said whether it has a deal at all: the kinds that it does not name count as one, and all racks that there
can be are followed from place to place. Where it has no deal although no kinds of it show that as a cut, a search for a deal or a cut has to leave it
open.
"""
from collections import Counter
from itertools import combinations
from math import prod

from deals import fits

MOST_KINDS, MOST_RACKS = 6, 150


def letters(text):
    return Counter(text.removeprefix("."))


def read_told(lines):
    """What a probe told of a record: `dealt` and a deal, `cut`, its kinds, whether the places before the last one have a deal, and of
    each place its line and where tiles are counted, or a word alone."""
    word, *rest = lines[0].split(" ")
    if word == "dealt":
        rows = [[letters(part) for part in line.split(" ")] for line in lines[1:]]
        return word, [((first, second), thrown) for first, second, thrown in rows]
    if word == "cut":
        return word, (letters(rest[0]), rest[1] == "dealt", [line.split(" ") for line in lines[1:]])
    return word, None


def split(tiles, kinds):
    """How many of some tiles are of the kinds, and how many are not."""
    chosen = sum(number for kind, number in tiles.items() if kind in kinds)
    return chosen, tiles.total() - chosen


def ways(number, chosen, others):
    """How many of some tiles that are taken can be of the kinds, where there are so many of them and of others."""
    return range(max(0, number - others), min(number, chosen) + 1)


def is_met(place, racks, kinds):
    """Whether racks with so many tiles of the kinds can have what is known at a place."""
    if place.holder is None:
        return True
    chosen, others = split(place.need, kinds)
    has, size = racks[place.holder], place.racks[place.holder]
    if place.event.kind == "rack":
        return (has, size - has) == (chosen, others)
    return chosen <= has and others <= size - has


def moved(place, racks, tiles, kinds, bag_after):
    """How many tiles of the kinds can be on the racks after a place, from so many before it."""
    player, event = place.event.player, place.event
    if event.kind not in ("play", "exchange", "unknown") or (event.kind == "play" and not place.stands):
        return {racks}
    left = place.used if place.stands else place.throws()
    known, known_others = split(left, kinds)
    rest, others = racks[player] - known, place.racks[player] - racks[player] - known_others
    thrown = event.size if event.kind == "unknown" else 0
    drawn = place.used.total() if place.stands else left.total() + thrown
    drawn = min(drawn, place.bag)
    bag = split(tiles, kinds)[0] - split(place.board, kinds)[0] - sum(racks)
    after = set()
    for gone in ways(thrown, rest, others):
        for come in ways(drawn, bag, place.bag - bag):
            later = list(racks)
            later[player] = rest - gone + come
            after.add(tuple(later))
    return after


def shows_none(places, tiles, kinds):
    """Whether no way is left through the places, with these kinds as one and all others as another."""
    if not places:
        return False
    chosen, others = split(tiles, kinds)
    sizes = places[0].racks
    reached = {(first, second) for first in ways(sizes[0], chosen, others) for second in ways(sizes[1], chosen - first, others - (sizes[0] - first))}
    for number, place in enumerate(places):
        if place.event.kind == "withdraw":
            continue
        reached = {racks for racks in reached if is_met(place, racks, kinds)}
        later = places[number + 1].bag if number + 1 < len(places) else None
        reached = {after for racks in reached for after in moved(place, racks, tiles, kinds, later)}
        if not reached:
            return True
    return not reached


def is_right(told, places, tiles):
    """Whether what a probe told of the places of a record is shown by what it told."""
    word, what = told
    if word == "dealt":
        return fits(places, tiles, what)
    if word == "cut":
        kinds, _, rows = what
        return 0 < len(rows) <= len(places) and shows_none(places[: len(rows)], tiles, kinds)
    return word == "unknown"


# ---- whether there is a deal at all


def kinds_named(places):
    """The kinds that a record names: on racks, in plays, and as exchanged tiles."""
    return sorted({kind for place in places for tiles in (place.need or (), place.used, place.throws(), place.board) for kind in tiles})


def parts(tiles, number):
    """All ways to take a number of tiles, where `tiles` says how many there are of each kind."""
    if not tiles:
        return [()] if number == 0 else []
    first, *others = tiles
    return [(taken, *rest) for taken in range(min(first, number) + 1) for rest in parts(others, number - taken)]


def plus(one, other):
    return tuple(a + b for a, b in zip(one, other))


def minus(one, other):
    return tuple(a - b for a, b in zip(one, other))


def racks_before(place, racks, counted):
    """Whether these racks have what is known at a place."""
    if place.holder is None:
        return True
    has, need = racks[place.holder], counted(place.need)
    return has == need if place.event.kind == "rack" else min(minus(has, need)) >= 0


def racks_after(place, before, racks, tiles, counted, sizes):
    """The racks that there can be before the next place, of these sizes."""
    player, event = place.event.player, place.event
    if event.kind == "withdraw":
        yield plus(racks[player], counted(before.used))
        return
    rest = minus(racks[player], counted(place.used + place.throws()))
    if not place.stands and event.kind not in ("exchange", "unknown"):
        yield rest
        return
    bag = minus(minus(minus(tiles, counted(place.board)), racks[0]), racks[1])
    for thrown in parts(rest, event.size) if event.kind == "unknown" else [(0,) * len(rest)]:
        kept = minus(rest, thrown)
        for drawn in parts(bag, sizes[player] - sum(kept)):
            yield plus(kept, drawn)


def has_deal(places, tiles, kinds):
    """Whether some deal fits a record that names only these kinds."""

    def counted(some):
        named = [Counter(some)[kind] for kind in kinds]
        return (*named, Counter(some).total() - sum(named))

    whole, sizes = counted(tiles), places[0].racks
    reached = {(first, second) for first in parts(whole, sizes[0]) for second in parts(minus(whole, first), sizes[1])}
    for now, place in enumerate(places):
        reached = {racks for racks in reached if racks_before(place, racks, counted)}
        if now + 1 == len(places):
            break
        before, player, after = places[now - 1] if now else None, place.event.player, set()
        for racks in reached:
            for later in racks_after(place, before, racks, whole, counted, places[now + 1].racks):
                after.add((later, racks[1]) if player == 0 else (racks[0], later))
        reached = after
    return bool(reached)


def decided(places, tiles):
    """What there is to find of a record: `deal`, `cut` or `open`, if it has no deal and no kinds that it names show that; None if it names so many
    that this is not tried."""
    kinds = kinds_named(places)
    if len(kinds) > MOST_KINDS or prod(min(tiles[kind], 7) + 1 for kind in kinds) > MOST_RACKS:
        return None
    if has_deal(places, tiles, kinds):
        return "deal"
    chosen = (some for many in range(len(kinds) + 1) for some in combinations(kinds, many))
    return "cut" if any(shows_none(places, tiles, set(some)) for some in chosen) else "open"
