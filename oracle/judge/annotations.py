"""The text of a record that `annotate` is to write, by the second judge: the record as it was given, with a note after each turn."""
import re
from itertools import islice

from answers import answered, lines_of
from best import Search
from explains import judged_text
from games import board_after
from objects import answers_of

MARK = b"\xef\xbb\xbf"


def beside(more):
    """How many points more the best play would have given, or that it would have given as many; nothing where it would have given fewer."""
    return f", {more} more" if more > 0 else ", equal" if more == 0 else ""


def note(answer, more=()):
    """The note of an event, from what is answered of it, and the next best plays."""
    parts = []
    if answer["turn"] == "no play":
        parts.append("no play is possible")
    if best := answer["best"]:
        parts.append(f"best {best['place']} {best['text']} {best['score']}{beside(best['more'])}")
    if more:
        parts.append(f"then {', '.join(map(str, more))}")
    if answer["unlisted"]:
        parts.append(f"not in the list: {' '.join(answer['unlisted'])}")
    return "; ".join(parts)


def next_plays(events, place, listed, rules, number):
    """The best plays of a turn, as many as are asked for, without the first."""
    plays = Search(listed, rules).plays(board_after(events[:place], listed, rules), events[place].rack)
    return sorted(plays, key=lambda play: play.rank())[1:number]


def notes_of(game, players, events, listed, rules, verdict, number=1, printed=""):
    """A note for each event of a record with this settled verdict line, up to the faulty line, whose note says why it is refused. Where no deal gives
    the racks, what was `printed` says what was found of them."""
    lines = lines_of(game)
    illegal = re.match("illegal line ([0-9]+):", verdict)
    place = next(k for k, line in enumerate(lines) if line >= int(illegal[1])) if illegal else len(events)
    notes = []
    for k, answer in enumerate(islice(answers_of(events, listed, rules), place)):
        more = next_plays(events, k, listed, rules, number) if number > 1 and answer["best"] else []
        notes.append(note(answer, more))
    if illegal:
        nicks = [player[0].decode("latin-1") if player else "the other player" for player in players]
        notes.append(" ".join(judged_text(events, lines, place, listed, rules, nicks, verdict, printed).split("\n")).rstrip())
    return [it.encode("latin-1") for it in notes]


def with_notes(game, notes):
    """A record with notes, each on a line after that of its event, which ends in the same way."""
    mark, text, left = (MARK, game[3:], notes) if game.startswith(MARK) else (b"", game, notes)
    told = []
    for line in text.split(b"\n"):
        told.append(line)
        if line.startswith(b">") and left:
            first, *left = left
            told += [b"#note " + first + (b"\r" if line.endswith(b"\r") else b"")] if first else []
    return mark + b"\n".join(told)


def annotated(words, lexicon, game, text, verdict, number=1, printed=""):
    """The record with notes, where the inputs are good and the verdict line is this; none where nothing is written."""

    def record(listed, players, events, rules):
        return [with_notes(game, notes_of(game, players, events, listed, rules, verdict, number, printed))] if events else None

    told = answered(words, lexicon, game, text, record)
    return told[0] if isinstance(told, list) else None
