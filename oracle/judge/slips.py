"""What may have been meant where a line is not allowed, by the second judge: another tile on a square, a blank, another order of the lines. Each
answer is a value; `explains.py` puts it into words, and `explained_objects.py` into an object."""
from collections import Counter
from dataclasses import dataclass, replace

from boards import Refused, place, runs, score_of
from games import Game, is_judged, step
from rules import KINDS

NAMED = 3


@dataclass
class Reading:
    """A play with another letter on a square: what is there, what is read, the words that it makes and its score."""

    square: tuple
    letter: str
    read: str
    words: list
    score: int


def used(new):
    """The tiles that a play puts down, by kinds."""
    return Counter("?" if tile.islower() else tile for tile in new.values())


def overfull(scene, new):
    """Whether the rack of the line and the tiles of a play are together more than the player has."""
    rack = Counter(scene.event.rack)
    return bool(rack) and sum((rack | used(new)).values()) > scene.game.racks[scene.event.player]


def laid(scene, word):
    """The new tiles of the play with another text, its words and its score; none where it is not legal."""
    event, rules = scene.event, scene.game.rules
    try:
        new, after = place(scene.game.board, event.at, event.direction, word)
    except Refused:
        return None
    found = runs(after, new, event.direction) + runs(after, new, event.direction[::-1])
    return new, ["".join(after[square] for square in run).upper() for run in found], score_of(after, new, found, rules)


def with_letter(scene, at, letter):
    """The play with another letter at a place of its text."""
    event = scene.event
    answer = laid(scene, event.word[:at] + letter + event.word[at + 1 :])
    square = (event.at[0] + event.direction[0] * at, event.at[1] + event.direction[1] * at)
    return answer and (answer[0], Reading(square, event.word[at], letter, *answer[1:]))


def as_blanks(scene):
    """The letters that may be blanks and the blanks that may be letters, by the score that is written."""
    found = []
    for at, letter in enumerate(scene.event.word):
        answer = with_letter(scene, at, letter.swapcase()) if letter != "." else None
        if answer and answer[1].score == scene.event.score and not overfull(scene, answer[0]):
            found.append(answer[1])
    return found


def not_on_rack(scene, new):
    """The kinds of which a play uses more than the rack has: kind, how many are played, how many the rack has."""
    rack, played = Counter(scene.event.rack), used(new)
    return [(kind, played[kind], rack[kind]) for kind in KINDS if played[kind] > rack[kind]]


def readings(scene):
    """With which other tile on a square the play uses only tiles of the rack, and makes only words of the list."""
    found = []
    for at, letter in enumerate(scene.event.word):
        for kind in KINDS if letter != "." else "":
            read = letter.lower() if kind == "?" else kind
            answer = with_letter(scene, at, read) if read != letter else None
            if answer and not used(answer[0]) - Counter(scene.event.rack) and all(word in scene.listed for word in answer[1].words):
                found.append(answer[1])
    return ([it for it in found if it.score == scene.event.score] or found)[:NAMED]


@dataclass
class Slips:
    """What may be wrong with the tiles of a play."""

    blanks: list
    missing: list
    readings: list


def slips_of(scene, is_wrong):
    """What may be wrong with the tiles of an event; `is_wrong` says that its score is not right."""
    answer = laid(scene, scene.event.word) if scene.event.kind == "play" else None
    if not answer:
        return Slips([], [], [])
    if overfull(scene, answer[0]):
        return Slips([], not_on_rack(scene, answer[0]), readings(scene))
    return Slips(as_blanks(scene) if is_wrong else [], [], [])


# ---- the order of the lines


def allowed_to(events, end, scene):
    """Whether the rules allow the first events."""
    game = Game(scene.game.rules)
    try:
        for k in range(end):
            step(game, events[k], events[k + 1] if k + 1 < len(events) else None, scene.listed)
    except Refused:
        return False
    return True


def stands_at(scene, at, direction):
    """Whether the rules allow every event of the record with the play at another place."""
    moved = replace(scene.event, at=at, direction=direction)
    return allowed_to([*scene.past, moved, *scene.later], len(scene.past) + 1 + len(scene.later), scene)


def fits(scene, right):
    """Whether the written total is right with the right score."""
    return scene.event.total == scene.game.totals[scene.event.player] + right


def said(event):
    return (
        event.player,
        event.kind,
        event.score,
        event.total,
        event.at,
        event.direction,
        event.word,
        Counter(event.tiles),
        event.size,
        Counter(event.rack),
    )


def missing_line(scene):
    """The points of a line of the other player that seems to be missing."""
    event, other = scene.event, 1 - scene.event.player
    behind = next((it for it in scene.later if it.player == other), None)
    if behind is None or event.total != scene.game.totals[event.player] + event.score:
        return None
    lacks = behind.total - behind.score - scene.game.totals[other]
    return lacks if lacks >= 0 else None


def order_of(scene):
    """What is wrong with the order of the lines: a name and, for a line that is missing, its points; none where it is not known."""
    event, past, later = scene.event, scene.past, scene.later
    if past and said(past[-1]) == said(event):
        return "StandsTwice", None
    if later and allowed_to([*past, later[0], event, *later[1:]], len(past) + 1 + len(later), scene):
        return "WrongWay", None
    if past and missing_line(scene) is not None:
        return "Missing", missing_line(scene)
    if allowed_to([*past, replace(event, player=1 - event.player), *later], len(past) + 1, scene):
        return "AllowedFor", None
    return None, None


# ---- a record whose events the rules allow


@dataclass
class Notes:
    """The plays that stand with words that are not in the list: line, player, words; the lines of the turns, and of those without a rack; the racks
    that are shown in part: line, player, how many tiles are shown, how many the player has; and the last rack that is missing: what happened, to
    whom."""

    plays: list
    turns: list
    hidden: list
    parts: list
    due: tuple

    def is_other_list(self):
        """Whether ten words or more are not in the list."""
        return sum(len(words) for _, _, words in self.plays) >= 10


def due(game):
    """The player who is out or has lost the points of a rack, where the other player's last rack is missing."""
    if game.complete:
        return None
    if game.out is not None:
        return "Out", game.out
    lost = [player for player in (0, 1) if game.ended[player]]
    return ("RackLost", lost[0]) if lost else None


def notes_of(events, lines, listed, rules):
    """What is noted of a record that the rules allow: the plays that stand with words that are not in the list, the turns without a rack and those
    with a part of it, and the last rack that is missing."""
    game, plays, turns, hidden, parts = Game(rules), [], [], [], []
    for k, event in enumerate(events):
        if is_judged(event, game.out):
            turns.append(lines[k])
            hidden += [] if event.rack else [lines[k]]
            has = game.racks[event.player]
            parts += [(lines[k], event.player, len(event.rack), has)] if 0 < len(event.rack) < has else []
        try:
            step(game, event, events[k + 1] if k + 1 < len(events) else None, listed)
        except Refused:
            return None
        if event.kind == "play" and game.latest["stands"]:
            unlisted = [word for word in game.latest["words"] if word not in listed]
            plays += [(lines[k], event.player, unlisted)] if unlisted else []
    return Notes(plays, turns, hidden, parts, due(game))
