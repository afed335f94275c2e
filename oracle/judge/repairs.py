"""The repairs of a record, by the second judge: the single changes that make a game of it, the likeliest first.

A change is a repair if the rules allow every event of the changed record once its scores and totals are recomputed, and a deal yields its racks.
"""
from collections import Counter
from copy import copy
from dataclasses import dataclass, field, replace
from functools import wraps
from math import inf

from audits import mended
from boards import Refused, check
from changes import ANOTHER_PLAY, changes_at, ordered
from deals import Place, course, judged_rack, kinds_of, settle
from games import Event, Game, step
from play_changes import Finder
from rules import ENGLISH
from settlings import decided

WRONG_NUMBER, UNLISTED_WORD = 5, 3
WORDS_OF_SLIPS = 3  # if more words are not in the list, they are phonies, or of another list


@dataclass
class Change:
    """Other events in place of some neighbours, from a place on: of none, if a line is missing there."""

    place: int
    replaced: int
    weight: int
    there: list

    def applied(self, events):
        return [*events[: self.place], *self.there, *events[self.place + self.replaced :]]

    def adds(self, place):
        """Whether the event at a place of the changed record is on no line of the sheet."""
        return bool(self.there) and not self.replaced and place == self.place


NOTHING = Change(0, 0, 0, [])


@dataclass
class Taken:
    """An event that the rules allow: with its right numbers, the tiles that it puts down, and those of its words that stand unlisted."""

    event: Event
    new: dict
    unlisted: list

    def what_happened(self):
        """The event, however its text is written: a tile of the board may be a dot or a letter there."""
        event = self.event
        numbers = event.score, event.total, event.size
        return event.player, event.kind, numbers, frozenset(self.new.items()), ordered(event.tiles), ordered(event.rack)


@dataclass
class Repair:
    """A change, the record with it and with right numbers, how many numbers of the sheet are wrong then, how many words stand unlisted, and
    whether a deal is found; if not, no bound is exceeded. `is_open` says that a search has to leave it open, and not only this judge: there is no
    deal, and no cut. `times` is how many changes make the same record."""

    change: Change
    taken: list
    wrong: int
    unlisted: int
    dealt: bool | None = None
    is_open: bool = False
    times: int = 1

    @property
    def is_known(self):
        """Whether it is known what a search finds."""
        return self.dealt or self.is_open

    @property
    def cost(self):
        return WRONG_NUMBER * self.wrong + UNLISTED_WORD * self.unlisted + self.change.weight

    def right(self):
        return [it.event for it in self.taken]

    def words(self):
        """The words that stand unlisted."""
        return [word for it in self.taken for word in it.unlisted]

    def happened(self):
        return tuple(it.what_happened() for it in self.taken)

    def record(self):
        """What happened, and where the text of each play begins: a play of one tile that is written in the other direction is another record."""
        return self.happened(), tuple((it.at, it.direction) for it in self.right())


# ---- a record with right numbers


def two():
    return [Counter(), Counter()]


@dataclass
class Hands:
    """What the racks of a record show of each player: the tiles laid before the player's latest exchange of unknown tiles, and since then those
    that left the rack, those of them that were thrown, and those that the player had in hand, at the least."""

    laid: list = field(default_factory=two)
    gone: list = field(default_factory=two)
    thrown: list = field(default_factory=two)
    had: list = field(default_factory=two)

    def judge(self, place, tiles):
        """Refuses a rack that exceeds a bound."""
        holder = place.holder
        if holder is None:
            return
        self.had[holder] = self.had[holder] | (self.gone[holder] + place.need)
        check(self.had[holder].total() <= self.gone[holder].total() + place.racks[holder], "RackTooBig")
        held = [self.laid[player] + self.had[player] - self.thrown[player] for player in (0, 1)]
        check(held[0] + held[1] <= tiles, "TilesShort")

    def go_on(self, place):
        player = place.event.player
        self.gone[player] = self.gone[player] + Counter(place.leaves(player))
        self.thrown[player] = self.thrown[player] + place.throws()
        if place.renews(player):
            self.laid[player] = self.laid[player] + self.gone[player] - self.thrown[player]
            self.gone[player], self.thrown[player], self.had[player] = Counter(), Counter(), Counter()


class AnyHands(Hands):
    """Racks of which nothing is refused."""

    def judge(self, place, tiles):
        pass


@dataclass
class State:
    """What is known before an event: of the game, and of the racks."""

    game: Game
    hands: Hands = field(default_factory=Hands)

    def copy(self):
        game, hands = copy(self.game), copy(self.hands)
        game.board, game.totals, game.racks = dict(game.board), list(game.totals), list(game.racks)
        game.timed, game.ended = list(game.timed), list(game.ended)
        hands.laid, hands.gone, hands.thrown, hands.had = list(hands.laid), list(hands.gone), list(hands.thrown), list(hands.had)
        return State(game, hands)

    def take(self, event, following, listed):
        """Takes an event with its right numbers, and refuses it if the rules do, or if a rack exceeds a bound there."""
        game, racks, bag, out = self.game, tuple(self.game.racks), self.game.bag, self.game.out
        event, new, stands, unlisted = right_event(game, event, following, listed), {}, False, []
        if event.kind == "play":
            new, stands = game.latest["new"], game.latest["stands"]
            unlisted = [word for word in game.latest["words"] if word not in listed] if stands else []
        place = Place(None, event, stands, None, racks, bag, None, kinds_of(new.values()))
        place.holder, place.need = judged_rack(place, out)
        self.hands.judge(place, game.rules.tiles)
        self.hands.go_on(place)
        return Taken(event, new, unlisted)

    def goes_on(self, events, place, listed):
        """Takes the events from a place on, one after the other."""
        for now in range(place, len(events)):
            yield self.take(events[now], events[now + 1] if now + 1 < len(events) else None, listed)


def right_event(game, event, following, listed):
    """Takes an event with the numbers that the rules give, and gives it with them. A refused event leaves the game as it is."""
    while True:
        try:
            step(game, event, following, listed)
            return event
        except Refused as fault:
            event = mended(event, fault)
            if event is None:
                raise


def wrong_numbers(change, changed, right):
    """How many scores and totals of a sheet are wrong. A total that carries on an earlier mistake is not, nor is one that is right although the line
    before it gives another; a line that is missing has its right score, and the total before the next line is with it."""
    wrong, had = 0, [0, 0]
    for place, (one, other) in enumerate(zip(changed, right)):
        if change.adds(place):
            had[one.player] += other.score
        else:
            wrong += (one.score != other.score) + (one.total not in (had[one.player] + one.score, other.total))
            had[one.player] = one.total
    return wrong


# ---- which changes are repairs


class Front:
    """The events of a record up to the first that is refused with any numbers, or whose rack exceeds a bound: no change after it makes up for that.
    `states` are those before each of these events, and `taken` are the events before it. What racks show is judged by `hands`."""

    def __init__(self, rules, events, listed, hands=Hands):
        self.rules, self.events, self.listed = rules, events, listed
        state, self.states, self.taken = State(Game(rules), hands()), [State(Game(rules), hands())], []
        try:
            for it in state.goes_on(events, 0, listed):
                self.taken.append(it)
                self.states.append(state.copy())
        except Refused:
            pass

    def changes(self, finder=None):
        """The changes up to the front, in the order of the list. Those of plays that a finder finds follow the others of their place."""
        for place, state in enumerate(self.states):
            for replaced, weight, there in changes_at(state.game, self.events, place):
                yield Change(place, replaced, weight, there)
            for replaced, weight, there in finder.changes_at(state.game, place) if finder else ():
                yield Change(place, replaced, weight, there)

    def with_change(self, change):
        """The record with a change, or None if an event of it is refused. The change may take back the play before it."""
        start, changed = max(0, change.place - 1), change.applied(self.events)
        try:
            rest = list(self.states[start].copy().goes_on(changed, start, self.listed))
        except Refused:
            return None
        both = [*self.taken[:start], *rest]
        wrong = wrong_numbers(change, changed, [it.event for it in both])
        return Repair(change, both, wrong, sum(len(it.unlisted) for it in both))

    def dealt(self, repair):
        """The repair with what deals say of it, or None if they refuse it."""
        places = course(repair.right(), self.listed, self.rules)
        said = settle(places, self.rules.tiles)
        if said != "unsettled":
            return replace(repair, dealt=True) if said is None else None
        found = decided(places, self.rules.tiles)
        return None if found == "cut" else replace(repair, dealt=found == "deal", is_open=found == "open")


def ranked(candidates):
    """Each resulting record once, by its cheapest change and of these the first, in the order of the rank."""
    made = {}
    for repair in sorted(candidates, key=lambda it: it.cost):
        made.setdefault(repair.record(), []).append(repair)
    for first, *others in made.values():
        yield replace(first, times=1 + len(others))


def remembered(find):
    """Remembers what was found of the last record, since several texts are made of it."""
    last = []

    @wraps(find)
    def found(events, listed, rules=ENGLISH):
        asked = repr(events), frozenset(listed), repr(rules)
        if not last or last[0] != asked:
            last[:] = asked, find(events, listed, rules)
        return last[1]

    return found


@remembered
def repairs(events, listed, rules=ENGLISH):
    """The repairs of a record, in the order of the rank. If only its numbers are wrong, a change has to leave fewer wrong numbers and unlisted
    words; if nothing is wrong, there is none. If none by the list of changes costs so little as a wrong number, plays are looked for too, but not if
    a single number or word is wrong."""
    front = Front(rules, events, listed)
    most = most_left(front)
    found = repairs_below(front, most)
    if most > 1 and not has_likely(found):
        found = repairs_below(front, most, Finder(events, listed, rules))
    nothing = front.with_change(NOTHING) if most < inf else None
    return [it for it in found if not (it.dealt and nothing and avoids_word(it, nothing, events))]


def trade_places(change, events):
    """Whether two neighbours in the text of a play are in each other's place."""
    if change.replaced != 1 or len(change.there) != 1 or not events[change.place].kind == change.there[0].kind == "play":
        return False
    wrong, right = events[change.place], change.there[0]
    if (wrong.at, wrong.direction, len(wrong.word)) != (right.at, right.direction, len(right.word)):
        return False
    places = [k for k, symbol in enumerate(wrong.word) if symbol != right.word[k]]
    return len(places) == 2 and places[1] == places[0] + 1 and right.word == twisted(wrong.word, places[0])


def twisted(word, place):
    """A text with the symbol at a place and the next one in each other's place."""
    return word[:place] + word[place + 1] + word[place] + word[place + 2 :]


def avoids_word(repair, nothing, events):
    """Whether more than three words are not in the list with only the numbers corrected, and all that a repair does is to avoid one by letters that
    trade places."""
    return nothing.unlisted > WORDS_OF_SLIPS and repair.wrong >= nothing.wrong and trade_places(repair.change, events)


def most_left(front):
    """How many numbers and words are wrong if the numbers alone are: fewer have to stay so with a repair."""
    nothing = front.with_change(NOTHING)
    if nothing and front.dealt(nothing):
        return nothing.wrong + nothing.unlisted if nothing.wrong else 0
    return inf


def has_likely(found):
    """Whether the first of some repairs costs no more than a wrong number."""
    return next((it.cost for it in found if it.dealt), inf) <= WRONG_NUMBER


@remembered
def many_tried(events, listed, rules=ENGLISH):
    """How many changes of a record without a likely repair are tried: those at each place up to the first event that the rules refuse with any
    numbers."""
    finder = Finder(events, listed, rules) if most_left(Front(rules, events, listed)) > 1 else None
    return sum(1 for _ in Front(rules, events, listed, AnyHands).changes(finder))


def repairs_below(front, most, finder=None):
    """The changes of a record that repair it and leave fewer numbers and words wrong than so many."""
    tried = map(front.with_change, front.changes(finder) if most else [])
    found = map(front.dealt, ranked(it for it in tried if it and it.wrong + it.unlisted < most))
    return [it for it in found if it]


# ---- lines


def blotted(word, right):
    """The right text of a play with a star for the letter that is another one, or that is missing."""
    if len(right) == len(word):
        places = [k for k, symbol in enumerate(right) if symbol.lower() != word[k].lower()]
    elif len(right) == len(word) + 1:
        places = [k for k in range(len(right)) if right[:k] + right[k + 1 :] == word][:1]
    else:
        places = []
    return right[: places[0]] + "*" + right[places[0] + 1 :] if len(places) == 1 and right[places[0]] != "." else right


def other_tile(wrong, right):
    """The tile that is another one, where as many are there; or that they are the same."""
    return ordered(Counter(wrong) - Counter(right)) if len(wrong) == len(right) else True


def shape(change, events):
    """What the repairs of one line have in common: all but a letter of a play, a tile that should be there, and how many tiles are exchanged. A play
    that is missing and one that is another one altogether are like no other."""
    if not change.replaced or len(change.there) != 1:
        return [(it.player, it.kind, it.score, it.at, it.direction, it.word) for it in change.there]
    wrong, right = events[change.place], change.there[0]
    if change.weight == ANOTHER_PLAY:
        return right.at, right.direction, right.word
    tiles = [(len(other), other_tile(one, other)) for one, other in ((wrong.rack, right.rack), (wrong.tiles, right.tiles))]
    return right.player, right.kind, right.score, right.at, right.direction, blotted(wrong.word, right.word), tiles


def lines(found, events):
    """The repairs in lines, by their first repairs: those of one kind at one place that cost the same and differ in a letter are one line."""
    grouped = {}
    for repair in found:
        change = repair.change
        key = change.place, change.replaced, change.weight, repair.cost, str(shape(change, events))
        grouped.setdefault(key, []).append(repair)
    return list(grouped.values())
