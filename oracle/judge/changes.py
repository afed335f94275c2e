"""The single changes of a record, listed by code of the second judge: each slip of the pen that a line may have, how much it weighs, and
the events that stand there without it."""
from dataclasses import replace

from games import Event
from rules import KINDS, RACK, SIDE

LETTERS = "ABCDEFGHIJKLMNOPQRSTUVWXYZ"
WORDS, STEPS = 8, 20
MISSING_PLAY, ANOTHER_PLAY = 4, 6


def positions(event):
    """Where else a play may stand: the other direction, each other square of its row and of its column, row and column exchanged."""
    row, column = event.at
    yield 2, replace(event, direction=event.direction[::-1])
    for other in range(SIDE):
        if other != column:
            yield 2 if abs(other - column) == 1 else 3, replace(event, at=(row, other))
    for other in range(SIDE):
        if other != row:
            yield 2 if abs(other - row) == 1 else 3, replace(event, at=(other, column))
    if row != column:
        yield 4, replace(event, at=(column, row))


def spellings(word):
    """The texts that a play may have in place of its own."""
    for k, symbol in enumerate(word):
        front, back = word[:k], word[k + 1 :]
        if symbol == ".":
            yield from ((2, front + letter + back) for letter in LETTERS)
            continue
        yield 2, front + symbol.swapcase() + back
        yield 2, front + "." + back
        same = LETTERS if symbol.isupper() else LETTERS.lower()
        yield from ((3, front + letter + back) for letter in same if letter != symbol)
    if len(word) > 1:
        yield from ((3, word[:k] + word[k + 1 :]) for k in range(len(word)))
    if len(word) < SIDE:
        for k in range(len(word) + 1):
            yield 2, word[:k] + "." + word[k:]
            yield from ((4, word[:k] + letter + word[k:]) for letter in LETTERS)
    for k in range(len(word) - 1):
        if word[k] != word[k + 1]:
            yield 2, word[:k] + word[k + 1] + word[k] + word[k + 2 :]


def laid(board, event):
    """The text of a play's own tiles from its square on, over those that are there; none where they do not find room or it is the same."""
    tiles, text = [symbol for symbol in event.word if symbol != "."], ""
    (row, column), (down, right) = event.at, event.direction
    while max(row, column) < SIDE and (tiles or (row, column) in board):
        text += "." if (row, column) in board else tiles.pop(0)
        row, column = row + down, column + right
    return text if text and not tiles and text != event.word else None


def ordered(tiles):
    return "".join(sorted(tiles, key=KINDS.index))


def without(tiles, tile):
    return tiles.replace(tile, "", 1)


def other_tiles(tiles):
    """The tiles with another one in place of one."""
    for tile in sorted(set(tiles), key=KINDS.index):
        yield from (ordered(without(tiles, tile) + right) for right in KINDS if right != tile)


def fewer_tiles(tiles):
    """The tiles without one of them, where it is not the only one."""
    if len(tiles) > 1:
        yield from (ordered(without(tiles, tile)) for tile in sorted(set(tiles), key=KINDS.index))


def more_tiles(tiles):
    """The tiles with one more, where there are fewer than seven."""
    if len(tiles) < RACK:
        yield from (ordered(tiles + tile) for tile in KINDS)


def rest(game, events):
    """The tiles that are neither on the board nor on a last rack of these events, where they can be a rack."""
    left = game.rules.tiles.copy()
    left.subtract("?" if tile.islower() else tile for tile in game.board.values())
    left = +left
    for event in events:
        if event.kind == "rack":
            left.subtract(event.tiles)
            left = +left
    return ordered(left.elements()) if 0 < left.total() <= RACK else None


def with_tiles(event, tiles):
    return replace(event, tiles=tiles, size=len(tiles))


def kinds(game, events, place):
    """What may be wrong with what happened in an event."""
    event = events[place]
    if event.kind == "play":
        yield from positions(event)
        yield from ((weight, replace(event, word=word)) for weight, word in spellings(event.word))
        text = laid(game.board, event)
        if text:
            yield 2, replace(event, word=text)
    elif event.kind == "pass":
        yield from ((2, replace(event, kind="unknown", size=size)) for size in range(1, RACK + 1))
        yield 2, replace(event, kind="withdraw")
    elif event.kind == "unknown":
        yield from ((4, replace(event, size=size)) for size in range(1, RACK + 1) if size != event.size)
        yield 2, replace(event, kind="pass", size=0)
    elif event.kind == "withdraw":
        yield 2, replace(event, kind="pass")
    elif event.kind in ("challenge", "time"):
        amounts = (
            [game.rules.challenge_unit * words for words in range(1, WORDS + 1)]
            if event.kind == "challenge"
            else [-game.rules.time_step * steps for steps in range(1, STEPS + 1)]
        )
        yield from ((2, replace(event, score=score)) for score in amounts if score != event.score)
    else:
        other, number = (3, 2) if event.kind == "exchange" else (2, 4)
        yield from ((other, with_tiles(event, tiles)) for tiles in other_tiles(event.tiles))
        yield from ((number, with_tiles(event, tiles)) for tiles in (*fewer_tiles(event.tiles), *more_tiles(event.tiles)))
        if event.kind == "rack":
            tiles = rest(game, events[:place] + events[place + 1 :])
            if tiles and tiles != ordered(event.tiles):
                yield 3, with_tiles(event, tiles)


def racks(event):
    """What may be wrong with the stated rack of a turn."""
    if event.rack and event.kind in ("play", "pass", "exchange", "unknown"):
        yield from ((3, replace(event, rack=rack)) for rack in (*other_tiles(event.rack), *fewer_tiles(event.rack)))
        yield 5, replace(event, rack="")


def misread_twice(event):
    """One tile that is misread on the stated rack and in what was done with it: a letter of the word, or a tile of the exchange."""
    if event.kind == "play":
        for k, tile in enumerate(event.word):
            for right in LETTERS if tile.isupper() and tile in event.rack else "":
                if right != tile:
                    yield 4, replace(event, word=event.word[:k] + right + event.word[k + 1 :], rack=ordered(without(event.rack, tile) + right))
    if event.kind == "exchange":
        for tile in KINDS:
            for right in KINDS if tile in event.rack and tile in event.tiles else "":
                if right != tile:
                    yield 4, replace(event, tiles=ordered(without(event.tiles, tile) + right), rack=ordered(without(event.rack, tile) + right))


def lines(events, place):
    """What may be wrong with any line: how many events, the weight and what stands there."""
    event = events[place]
    yield 1, 2, [replace(event, player=1 - event.player)]
    before = events[place - 1] if place else None
    again = before and (before.player, before.score, before.total) == (event.player, event.score, event.total)
    yield 1, 1 if again else 2 if event.kind == "pass" else 7, []
    for many, weight in ((2, 2), (3, 3)):
        if place + many <= len(events):
            yield many, weight, events[place : place + many][::-1]


def missing(game, events, place):
    """The lines that may be missing before a place."""
    turns = ("play", "pass", "exchange", "unknown", "withdraw")
    early = any(event.kind in turns for event in events[place:])

    def line(player, kind, score=0, **parts):
        return Event(player, kind, score, 0, "", **parts)

    for player in (0, 1):
        yield 2, line(player, "pass")
        yield from ((2, line(player, "unknown", size=size)) for size in range(1, RACK + 1))
        for steps in range(1, STEPS + 1):
            yield 11 if early else 3, line(player, "time", -game.rules.time_step * steps)
    if place and events[place - 1].kind == "play":
        player = events[place - 1].player
        yield 2, line(player, "withdraw")
        for words in range(1, WORDS + 1):
            yield 3 if words == 1 else 5, line(player, "challenge", game.rules.challenge_unit * words)
    if game.out is not None and not game.complete:
        tiles = rest(game, events)
        if tiles:
            yield 2, line(game.out, "rack", tiles=tiles, size=len(tiles))


def missing_play(player, at, direction, word):
    """A play that is missing before a place: how many events are others, the weight, and what stands there."""
    return 0, MISSING_PLAY, [Event(player, "play", 0, 0, "", at=at, direction=direction, word=word)]


def another_play(event, at, direction, word):
    """Another play in the place of one: the same of it."""
    return 1, ANOTHER_PLAY, [replace(event, at=at, direction=direction, word=word)]


def changes_at(game, events, place):
    """The changes at a place, by the game before it: how many events are others, the weight, and what stands there."""
    if place < len(events):
        yield from ((1, weight, [event]) for weight, event in kinds(game, events, place))
        yield from ((1, weight, [event]) for weight, event in racks(events[place]))
        yield from lines(events, place)
        yield from ((1, weight, [event]) for weight, event in misread_twice(events[place]))
    yield from ((0, weight, [event]) for weight, event in missing(game, events, place))
