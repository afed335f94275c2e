"""A slow second judge of games by the WESPA Game Rules, as docs/FAULTS.md has them.

It shares nothing with the program, and serves to compare what both say of the same events.
"""
from dataclasses import dataclass, field

from best import Search
from boards import Refused, check, place, runs, score_of
from rules import ENGLISH, RACK, Rules


@dataclass
class Event:
    """One event: player 0 or 1, its kind, what it says, its score and total, its text in a report, and the rack that its line shows."""

    player: int
    kind: str  # play, pass, exchange, unknown, withdraw, challenge, time, rack
    score: int
    total: int
    text: str
    at: tuple | None = None
    direction: tuple | None = None
    word: str = ""
    tiles: str = ""
    size: int = 0
    rack: str = ""


@dataclass
class Game:
    """What there is between two events of a game by some rules."""

    rules: Rules = ENGLISH
    board: dict = field(default_factory=dict)
    totals: list = field(default_factory=lambda: [0, 0])
    racks: list = field(default_factory=lambda: [RACK, RACK])
    bag: int = field(init=False)
    mover: int | None = None
    idle_turns: int = 0
    out: int | None = None
    idle_pass: bool = False
    complete: bool = False
    timed: list = field(default_factory=lambda: [False, False])
    ended: list = field(default_factory=lambda: [False, False])
    latest: dict | None = None  # of a play: player, new tiles, words, score, stands

    def __post_init__(self):
        self.bag = self.rules.bag()


def close(game, event, expected=None):
    """The last two checks of every event: its score, and the running total."""
    check(expected is None or event.score == expected, f"WrongScore {expected}")
    total = game.totals[event.player] + event.score
    check(event.total == total, f"WrongTotal {total}")


def may_turn(game, event, idles=False):
    over = game.out is not None or any(game.ended) or game.complete
    check(not over or idles, "GameOver")
    check(game.mover in (None, event.player), "NotYourTurn")


def pass_turn(game, event):
    game.mover, game.idle_turns = 1 - event.player, game.idle_turns + 1


def play(game, event, stands):
    may_turn(game, event)
    new, after = place(game.board, event.at, event.direction, event.word)
    check(len(new) <= game.racks[event.player], "TooManyUsed")
    found = runs(after, new, event.direction) + runs(after, new, event.direction[::-1])
    score = score_of(after, new, found, game.rules)
    close(game, event, score)
    words = ["".join(after[square] for square in run).upper() for run in found]
    game.board = after
    game.racks[event.player] -= len(new)
    if stands:
        drawn = min(len(new), game.bag)
        game.bag -= drawn
        game.racks[event.player] += drawn
        game.mover, game.idle_turns = 1 - event.player, 0
        if game.bag == 0 and game.racks[event.player] == 0:
            game.out = event.player
    return {"player": event.player, "new": new, "words": words, "score": score, "stands": stands}


def withdraw(game, event, listed):
    latest = game.latest
    check(latest and not latest["stands"] and latest["player"] == event.player, "NothingToWithdraw")
    check(not all(word in listed for word in latest["words"]), "WithdrawnValid")
    close(game, event, -latest["score"])
    for square in latest["new"]:
        del game.board[square]
    game.racks[event.player] += len(latest["new"])
    pass_turn(game, event)


def challenge(game, event, listed):
    latest = game.latest
    check(latest and latest["stands"] and latest["player"] == event.player, "BadBonus")
    valid = sum(word in listed for word in latest["words"])
    check(valid, "BonusOnPhony")
    check(event.score in [game.rules.challenge_unit * number for number in range(1, valid + 1)], "BadBonus")
    close(game, event)


def last_rack(game, event):
    points = game.rules.worth(event.tiles)
    player, size = event.player, len(event.tiles)
    check(not game.complete, "GameOver")
    if game.out is not None:
        check(player == game.out, "NotYourTurn")
        check(size == game.racks[1 - player], "LastRackSize")
        close(game, event, 2 * points)
    else:
        check(game.idle_turns >= game.rules.zero_limit or any(game.ended), "NotOver")
        check(not game.ended[player], "GameOver")
        check(size == game.racks[player], "LastRackSize")
        close(game, event, -points)
    game.complete = game.out is not None or any(game.ended)
    game.ended[player] = True


def other(game, event, listed):
    """An event that is no play."""
    if event.kind == "pass":
        idles = game.out == 1 - event.player and not game.idle_pass and not game.complete
        may_turn(game, event, idles)
        close(game, event, 0)
        if game.out is None:
            pass_turn(game, event)
        else:
            game.idle_pass = True
    elif event.kind in ("exchange", "unknown"):
        may_turn(game, event)
        check(game.bag >= game.rules.exchange_min, "ExchangeRefused")
        check(event.size <= min(game.racks[event.player], game.bag), "ExchangeSize")
        close(game, event, 0)
        pass_turn(game, event)
    elif event.kind == "time":
        check(event.score < 0 and event.score % game.rules.time_step == 0 and not game.timed[event.player], "BadTime")
        close(game, event)
        game.timed[event.player] = True
    elif event.kind == "rack":
        last_rack(game, event)
    else:
        (withdraw if event.kind == "withdraw" else challenge)(game, event, listed)


def step(game, event, following, listed):
    """Takes an event, and gives what a report says after it."""
    waiting = game.latest and not game.latest["stands"]
    check(not waiting or (event.kind == "withdraw" and event.player == game.latest["player"]), "NothingToWithdraw")
    told = ""
    if event.kind == "play":
        stands = following is None or following.kind != "withdraw"
        game.latest = play(game, event, stands)
        unlisted = [word for word in game.latest["words"] if word not in listed]
        told = " unlisted " + " ".join(unlisted) if stands and unlisted else ""
    else:
        other(game, event, listed)
        game.latest = None
    game.totals[event.player] += event.score
    return told


def is_judged(event, out):
    """Whether the rack of an event's line is judged: that of a play, also of one that is taken back, of an exchange, and of a pass
    but for the one after a player is out."""
    return event.kind in ("play", "exchange", "unknown") or (event.kind == "pass" and out is None)


@dataclass
class Line:
    """A line of a report: the event; of a turn the board before it, the stated rack and how many tiles its player holds, so that
    the best play is known (None of another event); and the unlisted words."""

    head: str
    turn: tuple
    unlisted: str

    def text(self, search):
        return f"{self.head}{search.told(*self.turn) if self.turn else ''}{self.unlisted}\n"


def go_through(events, listed, nicks="AB", rules=ENGLISH):
    """The verdict of the events on the lines 1, 2 and so on, deals apart, and the lines of their report where they are allowed."""
    game, lines = Game(rules), []
    for place_, event in enumerate(events):
        following = events[place_ + 1] if place_ + 1 < len(events) else None
        turn = (dict(game.board), event.rack, game.racks[event.player]) if is_judged(event, game.out) else None
        try:
            unlisted = step(game, event, following, listed)
        except Refused as fault:
            return f"illegal line {place_ + 1}: {fault}\n", []
        lines.append(Line(f"{place_ + 1} {nicks[event.player]} {event.text} {event.score:+d} {event.total}", turn, unlisted))
    return ("legal complete\n" if game.complete else "legal unfinished\n"), lines


def board_after(events, listed, rules=ENGLISH):
    """The board after events that the rules allow, a play that comes last included."""
    game = Game(rules)
    for event, following in zip(events, [*events[1:], None]):
        step(game, event, following, listed)
    return game.board


def report(verdict, lines, listed, rules=ENGLISH):
    """What `referee judge` prints: the verdict, and the lines of what is allowed, with the best play of each turn."""
    search = Search(listed, rules)
    return verdict + "".join(line.text(search) for line in lines)
