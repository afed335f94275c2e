"""The repairs of a draft, by the second judge: those of its sheet, but a number that is missing counts nowhere, neither as right nor as wrong."""
from math import inf

from play_changes import Finder
from repair_texts import LINES, differing, many_open, numbered, things, what_changes
from repairs import NOTHING, WORDS_OF_SLIPS, AnyHands, Front, Repair, avoids_word, has_likely, lines, most_left, repairs_below
from rules import ENGLISH


def lacks_with(change, lacks):
    """How many numbers each line lacks with a change. A line that is missing lacks both."""
    moved = lacks[change.place : change.place + change.replaced]
    there = moved[::-1] if change.replaced > 1 else [moved[0] if moved else 2 for _ in change.there]
    return [*lacks[: change.place], *there, *lacks[change.place + change.replaced :]]


def wrong_numbers(changed, right, lacks):
    """The numbers of a draft that are written and wrong: the place of each, what it is, what is written and what is right. What a player has after a
    line whose total is missing is what the player had and the score, and the right one if that is missing too."""
    told, had = [], [0, 0]
    for place, (one, other, missing) in enumerate(zip(changed, right, lacks)):
        before = had[one.player]
        if missing < 2 and one.score != other.score:
            told.append((place, "score", one.score, other.score))
        if not missing and one.total not in (before + one.score, other.total):
            told.append((place, "sum", one.total, other.total))
        had[one.player] = before + (other.score if missing == 2 else one.score) if missing else one.total
    return told


class DraftFront(Front):
    """The events of a draft up to the first that is refused with any numbers."""

    def __init__(self, rules, events, listed, lacks, *hands):
        super().__init__(rules, events, listed, *hands)
        self.lacks = lacks

    def with_change(self, change):
        """The draft with a change, or None if an event of it is refused."""
        found = super().with_change(change)
        if found is None:
            return None
        wrong = wrong_numbers(change.applied(self.events), found.right(), lacks_with(change, self.lacks))
        return Repair(change, found.taken, len(wrong), found.unlisted)


def draft_repairs(events, lacks, listed, rules=ENGLISH):
    """The repairs of a draft, in the order of the rank; what it is with right numbers alone, if that may be a game; and how many changes were
    tried."""
    front = DraftFront(rules, events, listed, lacks)
    most = most_left(front)
    finder = Finder(events, listed, rules) if most > 1 else None
    found = repairs_below(front, most)
    if finder and not has_likely(found):
        found = repairs_below(front, most, finder)
    nothing = front.with_change(NOTHING) if most < inf else None
    alone = nothing and front.dealt(nothing)
    told = [it for it in found if not (it.dealt and nothing and avoids_word(it, nothing, events))]
    return told, alone, sum(1 for _ in Front(rules, events, listed, AnyHands).changes(finder))


def to_go_by(events, lacks):
    """How many numbers a draft has, and how many a record has."""
    return 2 * len(events) - sum(lacks), 2 * len(events)


def evidence(repair, events, lacks, own):
    """How many of the written numbers are right, those that are not, and the words that are not in the list."""
    change, lacking = repair.change, lacks_with(repair.change, lacks)
    wrong = wrong_numbers(change.applied(events), repair.right(), lacking)
    many = 2 * len(lacking) - sum(lacking)
    moved = own[change.place : change.place + change.replaced]
    there = moved[::-1] if change.replaced > 1 else [(moved[0][0] if moved else None, it) for it in change.there]
    placed = [*own[: change.place], *there, *own[change.place + change.replaced :]]
    said = [f"  line {placed[place][0]}: {what} {written}, should be {right}\n" for place, what, written, right in wrong]
    unlisted = repair.words()
    words = f"  not in the list: {', '.join(unlisted)}\n" if unlisted else ""
    return f"  {many - len(wrong)} of {many} numbers right\n" + "".join(said) + words


def draft_repair_text(events, lacks, listed, rules=ENGLISH, nicks="AB", lines_of=None, number=LINES):
    """All lines behind the verdict line of a draft whose sheet is illegal. `lines_of` are the lines of the events in the file."""
    found, alone, tried = draft_repairs(events, lacks, listed, rules)
    own = list(zip(lines_of, events)) if lines_of else numbered(events)
    written, all_of = to_go_by(events, lacks)
    told = [(-2, 0, f"numbers to go by: {written} of {all_of}, the others are missing\n")] if written < all_of else []
    if alone and alone.unlisted > WORDS_OF_SLIPS:
        told.append((-1, 0, f"{alone.unlisted} words of the plays are not in the list: perhaps the game was played with another word list\n"))
    if alone:
        text = "with only the numbers corrected it " + ("is a game\n" if alone.dealt else "may be a game: no deal was found\n")
        told.append((alone.cost, 0, text + evidence(alone, events, lacks, own)))
    for line in lines([it for it in found if it.dealt], events)[:number]:
        others = [differing(it, events) for it in line[1:]]
        more = f" (or with {', '.join(others)})" if others else ""
        text = what_changes(line[0].change, line[0].right(), own, nicks) + more + "\n" + evidence(line[0], events, lacks, own)
        told.append((line[0].cost, len(told) + 1, text))
    text = "".join(it for _, _, it in sorted(told))
    if not any(it.dealt for it in found):
        known = all(it.dealt for it in found)
        but = ", but for letters that merely trade places" if alone and alone.unlisted > WORDS_OF_SLIPS else ""
        helps = ("leaves fewer errors", "is known to leave fewer errors") if alone else ("makes it a game", "is known to make it a game")
        text += f"none of {tried} single changes {helps[not known]}{but}\n"
    if left := many_open(found):
        text += f"with {things(left, 'more change')} every event stands, but no deal was found\n"
    return text
