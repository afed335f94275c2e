"""A slow second judge of deals: whether the tiles of a set can have been drawn so that every rack of a record was there.

It stands on the turns of `games.py` alone. The bounds, the rule of completion, and when a deal fits are written from the rules,
each by itself: what a place says is looked up in the whole record.
"""
import re
from collections import Counter
from dataclasses import dataclass
from functools import lru_cache

from boards import ACROSS, DOWN
from games import Event, Game, go_through, is_judged, report, step
from records import read
from rules import ENGLISH, KINDS, RACK


@dataclass(eq=False)
class Place:
    """An event with what is before it: the tiles on the board, the sizes of both racks and of the bag.

    `used` are the new tiles of a play, `stands` says whether it stands. `holder` is the player whose rack is judged here, None
    where none is, and `need` the tiles that this rack has to hold.
    """

    line: int
    event: Event
    stands: bool
    board: Counter
    racks: tuple
    bag: int
    turn: bool
    used: Counter
    holder: int | None = None
    need: Counter | None = None

    def throws(self):
        """The tiles of an exchange of known ones."""
        return Counter(self.event.tiles if self.event.kind == "exchange" else "")

    def leaves(self, player):
        """The tiles that leave a player's rack for good here."""
        if self.event.player != player:
            return ""
        return self.used if self.stands else self.throws()

    def renews(self, player):
        """Whether a player's epoch ends here: tiles are thrown that nobody knows."""
        return self.event.kind == "unknown" and self.event.player == player


def together(parts):
    """All tiles of some multisets."""
    whole = Counter()
    for part in parts:
        whole.update(part)
    return whole


def kinds_of(tiles):
    """How often each kind is among tiles as they lie on the board."""
    return Counter("?" if tile.islower() else tile for tile in tiles)


def judged_rack(place, out):
    """Whose rack is judged at an event, and what it has to hold."""
    event = place.event
    if event.kind == "rack":
        return (event.player if out is None else 1 - out), Counter(event.tiles)
    if is_judged(event, out):
        return event.player, Counter(event.rack) | place.used | place.throws()
    return None, None


def course(events, listed, rules=ENGLISH):
    """The places of a record whose events the rules allow."""
    game, places = Game(rules), []
    for number, event in enumerate(events):
        following = events[number + 1] if number + 1 < len(events) else None
        board, racks, bag, out = kinds_of(game.board.values()), tuple(game.racks), game.bag, game.out
        step(game, event, following, listed)
        stands = event.kind == "play" and game.latest["stands"]
        used = kinds_of(game.latest["new"].values()) if event.kind == "play" else Counter()
        turn = stands or event.kind in ("withdraw", "exchange", "unknown") or (event.kind == "pass" and out is None)
        place = Place(number + 1, event, stands, board, racks, bag, turn, used)
        place.holder, place.need = judged_rack(place, out)
        places.append(place)
    return tuple(places)


# ---- bounds


def epoch(places, player, now):
    """The first place of the player's present epoch: after the latest exchange of unknown tiles."""
    return max((k + 1 for k in range(now) if places[k].renews(player)), default=0)


@lru_cache(maxsize=1000)
def gone(places, player, now):
    """What left the player's rack in the present epoch, before a place."""
    return together(places[k].leaves(player) for k in range(epoch(places, player, now), now))


@lru_cache(maxsize=1000)
def low(places, player, now):
    """What the player had in hand in the present epoch, at the least, by the racks judged up to a place."""
    least = Counter()
    for u in range(epoch(places, player, now), now + 1):
        if places[u].holder == player:
            least |= gone(places, player, u) + places[u].need
    return least


def held(places, player, now):
    """The tiles that are the player's at a place, at the least: on the rack, and laid."""
    since = epoch(places, player, now)
    before = together(places[k].used for k in range(since) if places[k].stands and places[k].event.player == player)
    thrown = together(places[k].throws() for k in range(since, now) if places[k].event.player == player)
    return before + low(places, player, now) - thrown


def bound(places, tiles):
    """The first bound that a record exceeds: its line and its name. None where it exceeds none."""
    for now, place in enumerate(places):
        if place.holder is None:
            continue
        least, left = low(places, place.holder, now), gone(places, place.holder, now)
        if least.total() > left.total() + place.racks[place.holder]:
            return place.line, "RackTooBig"
        both = held(places, place.holder, now) + held(places, 1 - place.holder, now)
        for kind in KINDS:
            if both[kind] > tiles[kind]:
                return place.line, f"TilesShort {kind}"
    return None


# ---- completion


def wants(places, player, now, rack):
    """The want list of a player with a rack, for the places from one on, up to the next exchange of unknown tiles."""
    have, left, wanted = Counter(rack), Counter(), []
    for place in places[now:]:
        if place.holder == player:
            asked = left + place.need
            for kind in KINDS:
                if asked[kind] > have[kind]:
                    wanted += [kind] * (asked[kind] - have[kind])
                    have[kind] = asked[kind]
        left.update(place.leaves(player))
        if place.renews(player):
            break
    return wanted


def draw(number, wanted, reserved, bag):
    """Takes tiles from the bag: those wanted that are there, then what the other player does not want, then any."""
    drawn = []

    def take(kind):
        bag[kind] -= 1
        drawn.append(kind)

    for kind in wanted:
        if len(drawn) < number and bag[kind]:
            take(kind)
    kept = Counter(reserved)
    while len(drawn) < number:
        free = [kind for kind in KINDS if bag[kind] > kept[kind]] or [kind for kind in KINDS if bag[kind]]
        take(free[0])
    return Counter(drawn)


def keep(number, wanted, rack):
    """Which tiles of a rack stay: those wanted, then the first ones."""
    kept = Counter()
    for kind in [*wanted, *sorted(rack.elements(), key=KINDS.index)]:
        if kept.total() < number and rack[kind] > kept[kind]:
            kept[kind] += 1
    return kept


def complete_deal(places, tiles):
    """The deal that the rule of completion gives: both racks before each event and the tiles that it throws, or None."""
    bag, racks, waiting, deal = Counter(tiles), [Counter(), Counter()], Counter(), []

    def refill(player, number, now):
        other = wants(places, 1 - player, now, racks[1 - player])
        racks[player] += draw(number, wants(places, player, now, racks[player]), other, bag)

    opener = next((place.event.player for place in places if place.turn), 0)
    refill(opener, RACK, 0)
    refill(1 - opener, RACK, 0)
    for now, place in enumerate(places):
        if place.holder is not None and not place.need <= racks[place.holder]:
            return None
        if place.event.kind == "rack" and place.need != racks[place.holder]:
            return None
        player, thrown = place.event.player, place.throws()
        if place.event.kind == "unknown":
            wanted = wants(places, player, now + 1, Counter())
            thrown = racks[player] - keep(racks[player].total() - place.event.size, wanted, racks[player])
        deal.append((tuple(Counter(rack) for rack in racks), Counter(thrown)))
        racks[player] = racks[player] - place.used - thrown
        if place.stands:
            refill(player, min(place.used.total(), bag.total()), now + 1)
        elif place.event.kind == "play":
            waiting = place.used
        elif place.event.kind == "withdraw":
            racks[player] = racks[player] + waiting
        elif thrown:
            refill(player, thrown.total(), now + 1)
            bag += thrown
    return deal


# ---- when a deal fits


def fits_place(place, tiles, racks, thrown):
    """Whether racks and thrown tiles can be at a place."""
    bag = Counter(tiles)
    bag.subtract(place.board + racks[0] + racks[1])
    event = place.event
    if min(bag.values(), default=0) < 0 or bag.total() != place.bag or place.racks != (racks[0].total(), racks[1].total()):
        return False
    if event.kind == "rack":
        return racks[place.holder] == Counter(event.tiles) and not thrown
    if event.kind == "exchange" and thrown != Counter(event.tiles):
        return False
    if event.kind == "unknown" and thrown.total() != event.size:
        return False
    if event.kind not in ("exchange", "unknown") and thrown:
        return False
    parts = (Counter(event.rack), place.used, thrown)
    return place.holder is None or all(part <= racks[event.player] for part in parts)


def follows(place, before, tiles, racks, thrown, later):
    """Whether the racks before an event become those before the next one."""
    player, bag = place.event.player, Counter(tiles) - place.board - racks[0] - racks[1]
    if racks[1 - player] != later[1 - player]:
        return False
    if place.event.kind == "withdraw":
        return later[player] == racks[player] + before.used
    rest = racks[player] - place.used - thrown
    if not (place.stands or thrown):
        return later[player] == rest
    drawn = Counter(later[player])
    drawn.subtract(rest)
    return min(drawn.values(), default=0) >= 0 and drawn <= bag


def fits(places, tiles, deal):
    """Whether a deal yields every rack of a record."""
    if len(deal) != len(places):
        return False
    for now, (place, (racks, thrown)) in enumerate(zip(places, deal)):
        if not fits_place(place, tiles, racks, thrown):
            return False
        before = places[now - 1] if now else None
        if now + 1 < len(places) and not follows(place, before, tiles, racks, thrown, deal[now + 1][0]):
            return False
    return True


# ---- the whole


def settle(places, tiles):
    """What deals say of a record whose events the rules allow: the line of a verdict, or None where one fits."""
    exceeded = bound(places, tiles)
    if exceeded:
        return f"illegal line {exceeded[0]}: {exceeded[1]}"
    deal = complete_deal(places, tiles)
    return None if deal is not None and fits(places, tiles, deal) else "unsettled"


def decide(events, listed, rules=ENGLISH):
    """The verdict of these events on the lines 1, 2 and so on, and the lines of their report where they are a game."""
    verdict, lines = go_through(events, listed, rules=rules)
    if verdict.startswith("illegal"):
        return verdict, []
    settled = settle(course(events, listed, rules), rules.tiles)
    return (f"{settled}\n", []) if settled else (verdict, lines)


def judge_deal(events, listed, rules=ENGLISH):
    """What `referee judge` is to print of these events on the lines 1, 2 and so on."""
    return report(*decide(events, listed, rules), listed, rules)


def legal_report(events, listed, rules=ENGLISH):
    """What is to be printed of these events where some deal fits."""
    return report(*go_through(events, listed, rules=rules), listed, rules)


def settled_verdicts(events, listed, rules=ENGLISH):
    """The verdict lines that `referee judge --settle` may print of these events on the lines 1, 2 and so on."""
    known = decide(events, listed, rules)[0].removesuffix("\n")
    if known != "unsettled":
        return [known]
    legal = go_through(events, listed, rules=rules)[0].removesuffix("\n")
    return [legal, *(f"illegal line {k}: NoDeal" for k in range(1, len(events) + 1)), known]


def settled_ways(events, listed, rules=ENGLISH):
    """What `referee judge --settle` may print of these events: what `judge` does, or where that leaves the game open, that it is legal, or
    that no deal yields the racks up to an event."""
    known = judge_deal(events, listed, rules)
    if known != "unsettled\n":
        return [known]
    return [legal_report(events, listed, rules), *(f"illegal line {k}: NoDeal\n" for k in range(1, len(events) + 1)), known]


def event_of(said):
    """An event, from what the reading of a record says of its line."""
    player, rack, what, score, total = said
    rack, what = (rack or b"").decode(), what.decode()
    names = {"-": "pass", "--": "withdraw", "(challenge)": "challenge", "(time)": "time"}
    if " " in what:
        position, word = what.split(" ")
        row, column = re.search("[0-9]+", position)[0], re.search("[A-O]", position)[0]
        at, direction = (int(row) - 1, ord(column) - 65), ACROSS if position[0].isdigit() else DOWN
        return Event(player, "play", score, total, what, at=at, direction=direction, word=word, rack=rack)
    if what in names:
        return Event(player, names[what], score, total, what, rack=rack)
    tiles = what.strip("-()")
    if tiles.isdigit():
        return Event(player, "unknown", score, total, what, size=int(tiles), rack=rack)
    return Event(player, "rack" if what[0] == "(" else "exchange", score, total, what, tiles=tiles, size=len(tiles), rack=rack)


def events_of(text):
    """The events of a record."""
    return [event_of(said) for said in read(text.encode())[1]]
