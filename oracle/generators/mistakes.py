"""Games with mistakes of a director's day: a play that was written at another place or in the other direction, a total without a turn, a
wrong score, a rack that was copied wrongly, a line that is missing or there twice; and racks that nobody drew."""
import random
from dataclasses import replace

from dealing import Dealer, in_order, likely
from games import Event
from lexicons import GAD2, build, convert
from making import Maker, some_tiles
from rules import ENGLISH, RACK, SIDE
from rules_texts import text_of
from ruling import random_rules

choose = random.choice
MOST = 999_999
FRONTS = [b"", b"", b"=", b"<", b".", b" >", b"\t>", b"\xc2\xa0>", b"\xa0>", b"1. >", b">>", b"  ", b"\xef\xbb\xbf>", b"_"]
REMARKS = [
    b"#note\n8H AT 4 4\n",
    b"#note x\n",
    b"8H AT 4 4\n",
    b"A 8H 4 4\n",
    b"B (time) -10 20 x\n",
    b"A - B 350 401\n",
    b"A: well played\n",
    b"A: 8H AT 4\n",
    b"\n",
]


def moved(event):
    """A play that was written at another place, or in the other direction."""
    if event.kind != "play":
        return event
    if likely(0.4):
        return with_text(replace(event, direction=event.direction[::-1]))
    at = tuple(max(0, min(SIDE - 1, it + random.randint(-2, 2))) for it in event.at)
    return with_text(replace(event, at=at))


def misspelt(event):
    """A play with a wrong letter, a dot too many or a letter too few."""
    if event.kind != "play":
        return event
    at = random.randrange(len(event.word))
    word = event.word[:at] + choose([".", "A", "q", ""]) + event.word[at + 1 :]
    return with_text(replace(event, word=word or "."))


def with_text(event):
    """The event with the text that its line has."""
    row, column = str(event.at[0] + 1), chr(65 + event.at[1])
    return replace(event, text=f"{row + column if event.direction == (0, 1) else column + row} {event.word}")


def with_total_short(events, place):
    """The events, of which one player's total lacks a turn from a place on."""
    player = events[place].player
    own = [it for it in events[: place + 1] if it.player == player]
    short = choose(own).score
    return [replace(it, total=it.total - short) if k >= place and it.player == player else it for k, it in enumerate(events)]


def with_mistake(events):
    """Events with one mistake."""
    place, what = random.randrange(len(events)), random.random()
    event = events[place]
    if what < 0.15:
        return with_total_short(events, place)
    if what < 0.3:
        return events[:place] + events[place + choose([1, 2]) :]
    if what < 0.4:
        return events[: place + 1] + events[place:]
    change = {
        0: lambda: moved(event),
        1: lambda: misspelt(event),
        2: lambda: replace(event, score=event.score + choose([-50, -2, -1, 1, 2, 10, 50])),
        3: lambda: replace(event, rack=some_tiles(random.randint(1, 7))),
        4: lambda: replace(event, player=1 - event.player),
        5: lambda: replace(event, total=event.total + choose([-10, -1, 1, 100])),
    }
    return [*events[:place], change[random.randrange(6)](), *events[place + 1 :]]


def with_unread_line(game):
    """The text of a game in which an event begins otherwise than with >, or has no colon; or with a remark among its events."""
    lines = game.splitlines(keepends=True)
    at = random.randrange(len(lines) + 1)
    if at == len(lines) or likely(0.3):
        return b"".join([*lines[:at], choose(REMARKS), *lines[at:]])
    front = choose(FRONTS)
    changed = front + lines[at].removeprefix(b">")
    if likely(0.2):
        changed = changed.replace(b":", b"", 1)
    return b"".join([*lines[:at], changed, *lines[at + 1 :]])


def with_unread_lines(game):
    """The same, mostly as it is."""
    for _ in range(choose([0, 0, 1, 3]) if game else 0):
        game = with_unread_line(game)
    return game


def undrawn(rules):
    """Exchanges whose lines show racks that nobody drew: mostly no deal gives these, since few tiles are exchanged between them."""
    events = []
    for turn in range(random.randint(3, 5)):
        rack, number = in_order(random.sample(sorted(rules.tiles.elements()), RACK)), choose([1, 1, 2])
        events.append(Event(turn % 2, "unknown", 0, 0, f"-{number}", size=number, rack=rack))
    return events


def some_game(rules):
    """A game and the words of its list."""
    if likely(0.08):
        return undrawn(rules), {"AT"}
    if likely(0.5):
        maker = Maker(choose([2, 6, 40]), rules)
        events = maker.game()
        listed = set(maker.listed)
    else:
        dealer = Dealer(rules, choose([6, 25, 40]), choose([(), ("known", "unknown")]), choose(["whole", "mixed", "none"]), 4)
        events, _, listed = dealer.game()
        listed = set(listed) - dealer.phonies
    for _ in range(choose([0, 1, 1, 2]) if events else 0):
        events = with_mistake(events) or events
    return events, {word for word in listed if 2 <= len(word) <= SIDE}


def some_inputs(put):
    """Rules and the events of such a game, with its list, a lexicon of it, and the rules as a text (None: the English ones, without a text);
    `put` writes these three. No number of the game is too large for a record."""
    rules = ENGLISH if likely(0.75) else random_rules()
    events, listed = some_game(rules)
    if any(abs(number) > MOST for it in events for number in (it.score, it.total)):
        return some_inputs(put)
    words = put("words", "\n".join(sorted(listed)).encode())
    lexicon = put("lexicon", choose([build(listed), convert(build(listed), GAD2)]))
    text = put("rules", text_of(rules)) if rules != ENGLISH or likely(0.2) else None
    return rules, events, words, lexicon, text
