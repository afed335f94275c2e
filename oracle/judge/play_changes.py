"""The changes of plays of a record, found by the plain search of the second judge: a play that is missing, and a play that is another one altogether.

In a record that has a last rack all tiles are on its lines. Those that are on none may be the tiles of a play that is missing, and a play must have
had those that are on no other line. A play whose line states a rack may also be another play of that rack with the score that is written.
"""
from dataclasses import replace

from best import Search
from boards import ACROSS, DOWN
from changes import ordered, rest
from games import Event, Game
from rules import SIDE

MISSING, OTHER = 4, 6


def stands(events, place):
    """Whether an event is a play that is not taken back."""
    following = events[place + 1 : place + 2]
    return events[place].kind == "play" and not (following and following[0].kind == "withdraw")


def laid(events):
    """The tiles of all plays that stand, each on its square if none lies there before, whatever is wrong with the plays."""
    board = {}
    for place, event in enumerate(events):
        (row, column), (down, right) = (event.at, event.direction) if stands(events, place) else ((0, 0), ACROSS)
        for k, symbol in enumerate(event.word if stands(events, place) else ""):
            square = row + down * k, column + right * k
            if symbol != "." and max(square) < SIDE:
                board.setdefault(square, symbol)
    return board


def on_no_line(rules, events):
    """The tiles that are on no line; None if they are no rack, or if no last rack tells them."""
    return rest(Game(rules, board=laid(events)), events)


def tiles_of(found):
    return ordered("?" if symbol.islower() else symbol for symbol in found.word if symbol != ".")


def written(found):
    """How a play is written on its line."""
    return {"at": (found.row, found.column), "direction": DOWN if found.down else ACROSS, "word": found.word}


class Finder:
    """Finds the changes of plays of a record: as the changes of the list, how many events are others, the weight, and what stands there."""

    def __init__(self, events, listed, rules):
        self.events, self.rules, self.search = events, rules, Search(listed, rules)
        self.ended = any(event.kind == "rack" for event in events)
        self.left = on_no_line(rules, events) if self.ended else None

    def plays(self, board, rack):
        """The plays of a rack: those across before those down, then by their squares and texts."""
        return sorted(self.search.plays(board, rack), key=lambda it: it.rank()[1:])

    def others(self, game, place):
        """The plays that the one at a place may have been."""
        event, others = self.events[place], self.events[:place] + self.events[place + 1 :]
        if not stands(self.events, place):
            return
        tiles = on_no_line(self.rules, others) if self.ended else None
        found = [it for it in self.plays(game.board, tiles) if tiles_of(it) == tiles] if tiles else []
        if event.rack:
            found += [it for it in self.plays(game.board, event.rack) if it.score == event.score and tiles_of(it) != tiles]
        for it in found:
            other = replace(event, **written(it))
            if other != event:
                yield 1, OTHER, [other]

    def missing(self, game, place):
        """The plays that may be missing before a place."""
        following = self.events[place : place + 1]
        player = game.mover if game.mover is not None else 1 - following[0].player if following else None
        over = game.out is not None or any(game.ended) or game.complete
        if over or player is None or not self.left or (following and following[0].kind == "withdraw"):
            return
        for it in self.plays(game.board, self.left):
            if tiles_of(it) == self.left:
                yield 0, MISSING, [Event(player, "play", 0, 0, "", **written(it))]

    def changes_at(self, game, place):
        if place < len(self.events):
            yield from self.others(game, place)
        yield from self.missing(game, place)
