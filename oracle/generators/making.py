"""Games that nobody dealt: events that the rules mostly allow, with racks and texts drawn at random.

`Maker(longest, rules).game()` gives the events of a game; `listed` has the words that are listed then.
"""
import random

from boards import ACROSS, DOWN, Refused, place, runs, score_of
from dealing import in_order, likely, words_in_reach
from games import Event
from rules import ENGLISH

choose = random.choice
LETTERS = "AAAAEEEEEEIIIINNNRRRSSTTTOOOOUUDDLLGBCMPQZ"


def some_tiles(size):
    return in_order(choose(LETTERS + "?") for _ in range(size))


def letter():
    return choose(LETTERS) if likely(0.93) else choose(LETTERS).lower()


def random_text(board):
    """A text somewhere on the board, mostly through tiles."""
    step, size = choose([ACROSS, DOWN]), random.randint(1, 9)
    row, column = choose(list(board)) if board else (7, 7)
    back = random.randint(0, 4)
    at = row - step[0] * back + choose([0, 0, step[1]]), column - step[1] * back + choose([0, 0, step[0]])
    at = max(0, min(14, at[0])), max(0, min(14, at[1]))
    squares = [(at[0] + step[0] * k, at[1] + step[1] * k) for k in range(size)]
    return at, step, "".join(choose([".", board[s]]) if s in board else letter() for s in squares)


def tiles_used(event, board):
    """The tiles that a play or an exchange takes from its rack."""
    if event.kind != "play":
        return event.tiles if event.kind == "exchange" else ""
    (row, column), (down, right) = event.at, event.direction
    new = (tile for k, tile in enumerate(event.word) if (row + down * k, column + right * k) not in board and tile != ".")
    return "".join("?" if tile.islower() else tile for tile in new)


def random_rack(tiles):
    """A rack of up to seven tiles, sometimes with blanks."""
    rack = random.sample(tiles, random.choice([1, 3, 5, 6, 7, 7]))
    return in_order(rack[1:] + ["?"] if likely(0.3) else rack)


def in_either_case(rack):
    """A rack as a person may name it: as it is, or with some of its letters small."""
    return "".join(tile.lower() if likely(0.5) else tile for tile in rack) if likely(0.2) else rack


class Maker:
    """Makes the events of one game by some rules, mostly allowed ones; the bag and the racks are kept so that games can end."""

    def __init__(self, longest, rules=ENGLISH):
        self.rules, self.longest, self.events, self.listed = rules, longest, [], set()
        self.board, self.totals, self.player = {}, [0, 0], 0
        self.racks, self.bag, self.out = [7, 7], rules.bag(), None
        self.turns, self.phonies = {}, set()

    def add(self, player, kind, text, score, **said):
        """Records an event. Of each player's latest turn its place, the board and the size of the rack are kept."""
        if kind in ("play", "pass", "exchange", "unknown"):
            self.turns[player] = len(self.events), self.board, self.racks[player]
        self.totals[player] += score
        rack = choose(["AEINRST", "EIT", "Q?"]) if likely(0.02) or kind in ("withdraw", "time") else ""
        self.events.append(Event(player, kind, score, self.totals[player], text, rack=rack, **said))

    def play(self):
        for _ in range(40):
            at, step, word = random_text(self.board)
            try:
                new, after = place(self.board, at, step, word)
            except Refused:
                if not likely(0.002):
                    continue
                new, after = {}, self.board
            if len(new) <= self.racks[self.player]:
                break
        else:
            return
        found = runs(after, new, step) + runs(after, new, step[::-1])
        score = score_of(after, new, found, self.rules) + likely(0.004)
        words = ["".join(after[s] for s in run).upper() for run in found]
        self.listed |= {word for word in words if likely(0.7)}
        row, column = str(at[0] + 1), chr(65 + at[1])
        text = (row + column if step == ACROSS else column + row) + " " + word
        self.add(self.player, "play", text, score, at=at, direction=step, word=word)
        if likely(0.1):
            self.add(self.player, "withdraw", "--", -score)
            self.phonies |= {choose(words)} if words and likely(0.9) else set()
        else:
            self.keep(after, len(new), len(found))
        self.player = 1 - self.player

    def keep(self, after, used, words):
        drawn = min(used, self.bag)
        self.board, self.bag = after, self.bag - drawn
        self.racks[self.player] += drawn - used
        if self.bag == 0 and self.racks[self.player] == 0:
            self.out = self.player
        if likely(0.06) and words:
            self.add(self.player, "challenge", "(challenge)", self.rules.challenge_unit * random.randint(1, words))

    def last_rack(self, player, holder, factor):
        size = self.racks[holder] if likely(0.9) else choose([1, 6, 7])
        tiles = some_tiles(max(1, size))
        self.add(player, "rack", f"({tiles})", factor * self.rules.worth(tiles), tiles=tiles)

    def turn(self):
        kind, player = random.random(), self.player
        if kind < 0.84:
            return self.play()
        if kind < 0.95:
            size = random.randint(1, 7)
            tiles = some_tiles(size)
            what = choose([("pass", "-"), ("exchange", "-" + tiles), ("unknown", f"-{size}")])
            self.add(player, what[0], what[1], 0, tiles=tiles, size=size)
            self.player = 1 - player
        elif kind < 0.97:
            step = self.rules.time_step
            self.add(choose([0, 1]), "time", "(time)", choose([-step, -2 * step, -step - 2]))
        elif kind < 0.98:
            self.add(player, choose(["withdraw", "challenge"]), "", 5)
            self.events[-1].text = "--" if self.events[-1].kind == "withdraw" else "(challenge)"
        else:
            for turn in range(self.rules.zero_limit):
                self.add((player + turn) % 2, "pass", "-", 0)
            for loser in choose([(0, 1), (1, 0), (0, 0), (0,)]):
                self.last_rack(loser, loser, -1)

    def game(self):
        for _ in range(self.longest):
            if self.out is not None:
                break
            self.turn()
        if self.out is not None:
            for _ in range(choose([0, 0, 1, 1, 2])):
                self.add(choose([1 - self.out, 1 - self.out, self.out]), "pass", "-", 0)
            self.last_rack(self.out if likely(0.95) else 1 - self.out, 1 - self.out, 2)
        for place_, board, size in self.turns.values():
            if likely(0.7):
                self.show_rack(self.events[place_], board, size)
        self.listed -= self.phonies
        return self.events

    def show_rack(self, event, board, size):
        """Lets the line of a player's latest turn show a whole rack, or one tile less, and lists words of plays that it allows."""
        used = tiles_used(event, board)
        number = size - len(used) - likely(0.1)
        if number < 0 or number + len(used) == 0:
            return
        event.rack = in_order(used + some_tiles(number) if likely(0.6) or not number else used + some_tiles(number - 1) + "?")
        if likely(0.8):
            self.listed |= words_in_reach(board, event.rack, choose([1, 3, 10, 100]))
