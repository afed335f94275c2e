"""Random games that are dealt for real: a bag of tiles, racks drawn from it at random, and a record of what is played.

`Dealer(..).game()` gives the events of a game, the deal that there was, and the words that are listed.
"""
import random
from collections import Counter
from dataclasses import replace

from boards import ACROSS, DOWN, Refused, place, runs, score_of
from games import Event
from rules import ENGLISH, RACK

choose = random.choice


def likely(share):
    return random.random() < share


def in_order(tiles):
    return "".join(sorted(tiles, key=lambda tile: (tile == "?", tile)))


def text_from(board, rack):
    """A text somewhere on a board, with tiles of a rack on the empty squares."""
    step = choose([ACROSS, DOWN])
    row, column = choose(list(board)) if board else (7, 7)
    side = choose([0, 0, 0, 1, -1]) if board else 0
    back, size = random.randint(0, 5), random.randint(2, 9)
    at = row - step[0] * back + step[1] * side, column - step[1] * back + step[0] * side
    squares = [(at[0] + step[0] * k, at[1] + step[1] * k) for k in range(size)]
    if min(at) < 0 or max(squares[-1]) > 14 or max(at) > 14:
        return None
    tiles = random.sample(rack, len(rack))
    word = ""
    for square in squares:
        if square in board:
            word += choose([".", board[square]])
        elif not tiles:
            return None
        else:
            tile = tiles.pop()
            word += choose("abcdefghijklmnopqrstuvwxyz") if tile == "?" else tile
    return at, step, word


def words_in_reach(board, rack, tries):
    """Words of some plays that a rack could make on a board, so that a list which has them allows plays."""
    words = set()
    for _ in range(tries):
        tried = text_from(board, list(rack))
        try:
            new, after = place(board, *tried) if tried else ({}, {})
        except Refused:
            continue
        found = runs(after, new, ACROSS) + runs(after, new, DOWN)
        words |= {"".join(after[square] for square in run).upper() for run in found}
    return words


class Dealer:
    """Deals and plays one game by some rules.

    `exchanges` are the kinds of exchanges that are made, `stated` how lines show racks: whole, in part, a mixture of both and of
    none, none, or `one`: those of player 0 whole, and of player 1 none and the numbers of exchanged tiles alone. `share` is how
    many of 100 turns are exchanges, where that may be, and `known` how likely a word of a play that stands is in the list.
    """

    def __init__(self, rules, turns, exchanges=(), stated="mixed", share=None, known=0.5):
        self.rules, self.bag = rules, list(rules.tiles.elements())
        random.shuffle(self.bag)
        self.turns, self.exchanges, self.stated, self.known = turns, exchanges, stated, known
        self.share = share or (9 if rules == ENGLISH else 37)
        self.board, self.totals, self.racks = {}, [0, 0], [[], []]
        self.player, self.idle, self.out, self.over = choose([0, 1]), 0, None, False
        self.events, self.deal, self.boards, self.listed, self.phonies, self.timed = [], [], [], set(), set(), set()
        for player in (0, 1):
            self.draw(player, RACK)

    def draw(self, player, number):
        for _ in range(min(number, len(self.bag))):
            self.racks[player].append(self.bag.pop())

    def shown(self, player, used=""):
        """What a line shows of a rack."""
        rack = self.racks[player]
        how = self.stated if self.stated != "mixed" else choose(["whole", "whole", "part", "part", "none"])
        how = how if how != "one" else ["whole", "none"][player]
        if how == "none" or not rack:
            return ""
        if how == "whole":
            return in_order(rack)
        part = random.sample(rack, random.randint(1, len(rack)))
        return in_order(part if likely(0.5) else (Counter(part) | Counter(used)).elements())

    def add(self, player, kind, text, score, thrown="", **said):
        """Records an event, and both racks and the board before it."""
        self.boards.append(self.board)
        self.deal.append((tuple(Counter(rack) for rack in self.racks), Counter(thrown)))
        self.totals[player] += score
        self.events.append(Event(player, kind, score, self.totals[player], text, **said))

    def take_off(self, player, tiles):
        for tile in tiles:
            self.racks[player].remove(tile)

    def play(self):
        player = self.player
        for _ in range(60):
            tried = text_from(self.board, self.racks[player])
            if tried is None:
                continue
            at, step, word = tried
            try:
                new, after = place(self.board, at, step, word)
            except Refused:
                continue
            return self.lay(player, at, step, word, new, after)
        return self.pass_turn()

    def lay(self, player, at, step, word, new, after):
        found = runs(after, new, step) + runs(after, new, step[::-1])
        words = ["".join(after[square] for square in run).upper() for run in found]
        score, used = score_of(after, new, found, self.rules), ["?" if tile.islower() else tile for tile in new.values()]
        row, column = str(at[0] + 1), chr(65 + at[1])
        text = (row + column if step == ACROSS else column + row) + " " + word
        shown = self.shown(player, used)
        self.add(player, "play", text, score, at=at, direction=step, word=word, rack=shown)
        self.take_off(player, used)
        phonies = [word for word in words if word not in self.listed]
        if phonies and likely(0.12):
            self.phonies.add(choose(phonies))
            self.add(player, "withdraw", "--", -score, rack=choose(["", "ZZZZZZZ", shown]))
            self.racks[player] += used
            self.idle += 1
        else:
            self.listed |= {word for word in words if word not in self.phonies and likely(self.known)}
            self.board, self.idle = after, 0
            self.draw(player, len(used))
            if not self.racks[player]:
                self.out = player
            valid = sum(word in self.listed for word in words)
            if valid and likely(0.05):
                self.add(player, "challenge", "(challenge)", self.rules.challenge_unit * random.randint(1, valid), rack=choose(["", "QQQQ"]))
        self.player = 1 - player

    def pass_turn(self):
        self.add(self.player, "pass", "-", 0, rack=self.shown(self.player))
        self.idle, self.player = self.idle + 1, 1 - self.player

    def exchange(self):
        player = self.player
        thrown = random.sample(self.racks[player], random.randint(1, min(len(self.racks[player]), len(self.bag))))
        shown = self.shown(player)
        kind = choose(self.exchanges) if self.stated != "one" else ["known", "unknown"][player]
        if kind == "known":
            tiles = in_order(thrown)
            self.add(player, "exchange", "-" + tiles, 0, thrown, tiles=tiles, size=len(tiles), rack=shown)
        else:
            self.add(player, "unknown", f"-{len(thrown)}", 0, thrown, size=len(thrown), rack=shown)
        self.take_off(player, thrown)
        self.draw(player, len(thrown))
        self.bag += thrown
        random.shuffle(self.bag)
        self.idle, self.player = self.idle + 1, 1 - player

    def last_rack(self, player, holder, factor):
        tiles = in_order(self.racks[holder])
        self.add(player, "rack", f"({tiles})", factor * self.rules.worth(tiles), tiles=tiles, size=len(tiles), rack=choose(["", "XXX"]))

    def end(self):
        if self.out is not None:
            if likely(0.3):
                self.add(1 - self.out, "pass", "-", 0, rack=choose(["", "JJ"]))
            self.last_rack(self.out, 1 - self.out, 2)
        elif self.idle >= self.rules.zero_limit:
            for player in choose([(0, 1), (1, 0), (0,), (1,)]):
                self.last_rack(player, player, -1)

    def game(self):
        for _ in range(self.turns):
            if self.out is not None or (self.idle >= self.rules.zero_limit and likely(0.5)):
                break
            may_exchange = self.exchanges and len(self.bag) >= self.rules.exchange_min
            what = random.random()
            if what < 0.03:
                self.pass_turn()
            elif may_exchange and what < 0.03 + self.share / 100:
                self.exchange()
            else:
                self.play()
            player = choose([0, 1])
            if likely(0.01) and player not in self.timed:
                self.timed.add(player)
                self.add(player, "time", "(time)", -self.rules.time_step, rack=choose(["", "VVVV"]))
        if self.idle == 0 and self.out is None and likely(0.1):
            for _ in range(self.rules.zero_limit):
                self.pass_turn()
        self.end()
        return self.events, self.deal, self.listed


def spoiled(events, rules=ENGLISH):
    """A game with one judged rack changed: a tile of it for another, or one more tile. None where no line shows a rack."""
    shown = [k for k, event in enumerate(events) if event.rack and event.kind in ("play", "pass", "exchange", "unknown")]
    racks = [k for k, event in enumerate(events) if event.kind == "rack"]
    if not shown and not racks:
        return None
    at = choose(racks) if racks and (likely(0.3) or not shown) else choose(shown)
    event, letters = events[at], choose(["QZXJK?", "EARIOT", "ABCDEFGHIJKLMNOPQRSTUVWXYZ?"])
    tiles = list(event.tiles if event.kind == "rack" else event.rack)
    if event.kind != "rack" and len(tiles) < RACK and likely(0.5):
        tiles.append(choose(letters))
    else:
        for _ in range(random.randint(1, 2)):
            tiles[random.randrange(len(tiles))] = choose(letters)
    tiles = in_order(tiles)
    if event.kind != "rack":
        return [*events[:at], replace(event, rack=tiles), *events[at + 1 :]]
    points = rules.worth(event.tiles)
    factor = event.score // points if points else 0
    score = factor * rules.worth(tiles)
    if not factor:
        return None
    changed = replace(event, tiles=tiles, text=f"({tiles})", score=score, total=event.total + score - event.score)
    later = [replace(it, total=it.total + score - event.score) if it.player == event.player else it for it in events[at + 1 :]]
    return [*events[:at], changed, *later]


def line(event):
    rack = f"{event.rack} " if event.rack else ""
    return f">{'AB'[event.player]}: {rack}{event.text} {event.score:+d} {event.total}\n"
