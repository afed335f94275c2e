"""Tries the second judge of deals on worked rows and on random games that were dealt for real: try_deals CASES SEED

Of a real deal it has to be true that it fits, and no bound may refuse it; a record without exchanges whose bounds hold gets a
completion that fits. Of small games with a rack spoiled all deals are tried: what a bound refuses has none, and what is called
legal has one. How many games with exchanges come out `unsettled` is counted.
"""
import itertools
import random
import sys
from collections import Counter
from dataclasses import replace

from dealing import Dealer, spoiled
from deals import course, decide, events_of, fits, fits_place, follows, settle
from games import go_through
from rules import ENGLISH, RACK

SMALL = replace(ENGLISH, tiles=Counter("AADEEINORRSTTW"))
MORE = replace(ENGLISH, tiles=SMALL.tiles + Counter("AAA"), exchange_min=1)
RETAINS = ">A: AEINRST 8D RETAINS +66 66\n"
ON_WORD = ">A: DORWAAE 8E WORD +16 16\n>B: AT 9G AT +9 9\n"
LEFT = "legal unfinished\n"

# Records with the first line of their reports, made by hand: the rules and the listed words.
ROWS = [
    (RETAINS + ">A: (ADEORTW) +22 88\n", "legal complete", SMALL, "RETAINS"),
    (RETAINS + ">A: (ADEORTT) +16 82\n", "illegal line 2: TilesShort T", SMALL, "RETAINS"),
    (">A: AEI -5 +0 0\n>B: QU - +0 0\n>A: SX - +0 0\n", "legal unfinished", ENGLISH, "AT"),
    (">A: ?? - +0 0\n>B: ? - +0 0\n", "illegal line 2: TilesShort ?", ENGLISH, "WORD"),
    (">A: AEINRST 8H AT +4 4\n>B: - +0 0\n>A: AAABCDE - +0 4\n", "illegal line 3: RackTooBig", ENGLISH, "AT"),
    (">A: Q -Q +0 0\n>B: - +0 0\n>A: Q - +0 0\n", "unsettled", ENGLISH, "WORD"),
    (ON_WORD + ">B: ZZZZZZZ -- -9 0\n>A: AT 9G AT +9 25\n", "legal unfinished", ENGLISH, "WORD AT RA"),
    (">A: AEINRST -AEI +0 0\n", "legal unfinished", MORE, "RETAINS"),
    (">A: AEINRST - +0 0\n>B: ADEORTW - +0 0\n", "legal unfinished", SMALL, "RETAINS"),
    (">A: AEINRST - +0 0\n>B: ADEORTT - +0 0\n", "illegal line 2: TilesShort T", SMALL, "RETAINS"),
]


def rows():
    for text, wanted, rules, words in ROWS:
        told = decide(events_of(text), set(words.split()), rules)[0].strip()
        assert told == wanted, (text, told, wanted)
    print(f"{len(ROWS)} worked rows")


def deals_by_hand():
    """Deals of worked rows that must not fit: a tile that is on two racks, a thrown tile that comes back in the same draw."""
    both = events_of(">A: Q - +0 0\n>B: - +0 0\n")
    places = course(both, set())
    racks = Counter("QAEIOUT"), Counter("QAEIOUT")
    assert not fits(places, ENGLISH.tiles, [(racks, Counter()), (racks, Counter())])
    racks = Counter("QAEIOUT"), Counter("NRSTEEA")
    assert fits(places, ENGLISH.tiles, [(racks, Counter()), (racks, Counter())])
    back = events_of(">A: Q -Q +0 0\n>B: - +0 0\n>A: Q - +0 0\n")
    places, none = course(back, set()), Counter()
    assert not fits(places, ENGLISH.tiles, [(racks, Counter("Q")), (racks, none), (racks, none)])
    later = Counter("ZAEIOUT"), racks[1]
    assert not fits(places, ENGLISH.tiles, [(racks, Counter("Q")), (later, none), (later, none)])
    shown = events_of(">A: Q -Q +0 0\n>B: - +0 0\n>A: Z - +0 0\n")
    places = course(shown, set())
    assert fits(places, ENGLISH.tiles, [(racks, Counter("Q")), (later, none), (later, none)])
    assert not fits(places, ENGLISH.tiles, [(racks, none), (later, none), (later, none)])


def parts(tiles, number):
    """All ways to take a number of tiles."""
    return [Counter(part) for part in set(itertools.combinations(sorted(tiles.elements()), number))]


def rests(place, thrown, racks, tiles, sizes):
    """All racks that there may be before the next event: its player's with what is drawn, or what is taken back."""
    player = place.event.player
    rest = racks[player] - place.used - thrown
    bag = Counter(tiles) - place.board - racks[0] - racks[1]
    for drawn in parts(bag + (Counter() if place.event.kind != "withdraw" else place.board), sizes[player] - rest.total()):
        later = list(racks)
        later[player] = rest + drawn
        yield tuple(later)


def has_deal(places, tiles, now, racks):
    """Whether some deal fits from a place on, by trying all."""
    place = places[now]
    sizes = {"exchange": len(place.event.tiles), "unknown": place.event.size}
    for thrown in parts(racks[place.event.player], min(sizes.get(place.event.kind, 0), racks[place.event.player].total())):
        if not fits_place(place, tiles, racks, thrown):
            continue
        if now + 1 == len(places):
            return True
        for later in rests(place, thrown, racks, tiles, places[now + 1].racks):
            before = places[now - 1] if now else None
            if follows(place, before, tiles, racks, thrown, later) and has_deal(places, tiles, now + 1, later):
                return True
    return False


def some_deal(places, tiles):
    """Whether some deal fits, by trying all."""
    for first in parts(tiles, RACK):
        for second in parts(tiles - first, RACK):
            if has_deal(places, tiles, 0, (first, second)):
                return True
    return False


def small(cases):
    """Small games, with and without a rack spoiled, and all of their deals."""
    seen = Counter()
    while seen.total() < cases:
        tiles = Counter(random.choices("AEIRT?", [4, 4, 2, 2, 2, 1], k=random.choice([14, 15, 16])))
        exchanges = random.choice([(), ("known",), ("unknown",), ("known", "unknown")])
        rules = replace(ENGLISH, tiles=tiles, exchange_min=1)
        events, _, listed = Dealer(rules, random.choice([2, 3, 4, 5]), exchanges).game()
        record = random.choice([events, spoiled(events)])
        if not record or go_through(record, listed, rules=rules)[0].startswith("illegal"):
            continue
        places = course(record, listed, rules)
        told, found = settle(places, tiles) or "legal", some_deal(places, tiles)
        assert found == told.startswith("legal") or told == "unsettled", (told, found, tiles, record)
        assert told != "unsettled" or has_exchange(record), ("unsettled without an exchange", record)
        seen[f"{told.split(': ')[-1].split(' ')[0]}, {'some deal' if found else 'no deal'}"] += 1
    print(f"small games, all deals tried: {', '.join(f'{answer} {times}' for answer, times in sorted(seen.items()))}", flush=True)


def has_exchange(events):
    return any(event.kind in ("exchange", "unknown") for event in events)


def one(dealer, answers):
    """One real game, and one with a rack spoiled; whether the real one has an exchange."""
    events, deal, listed = dealer.game()
    places = course(events, listed)
    assert fits(places, ENGLISH.tiles, deal), ("a real deal does not fit", events)
    verdict = settle(places, ENGLISH.tiles)
    assert verdict is None or (verdict == "unsettled" and has_exchange(events)), ("a real game", verdict, events)
    changed = spoiled(events)
    if changed:
        spoilt = decide(changed, listed)[0].strip()
        assert spoilt != "unsettled" or has_exchange(events), ("unsettled without an exchange", changed)
        answers["spoiled: " + spoilt.split(": ")[-1].split(" ")[0]] += 1
    answers[f"{'exchange' if has_exchange(events) else 'none'}: {verdict or 'legal'}"] += 1
    return has_exchange(events)


def main():
    cases, seed = int(sys.argv[1]), int(sys.argv[2])
    rows()
    deals_by_hand()
    random.seed(seed)
    small(cases)
    for exchanges in ((), ("known",), ("unknown",), ("known", "unknown")):
        for stated in ("whole", "mixed"):
            random.seed(seed)
            answers, left = Counter(), cases
            while left:
                left -= one(Dealer(ENGLISH, random.choice([12, 40, 60]), exchanges, stated), answers) or not exchanges
            told = ", ".join(f"{answer} {times}" for answer, times in sorted(answers.items()))
            print(f"exchanges of tiles {' and '.join(exchanges) or 'none'}, racks {stated}: {told}", flush=True)


if __name__ == "__main__":
    main()
