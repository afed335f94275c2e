"""Compares `referee audit` with sheets whose mistakes are known, and with the second judge: compare_audits PROGRAM CASES SEED

Each game is dealt for real. Of every five cases two have one wrong score that is carried on in the totals, two one sum that is wrong,
carried on or not, and one both: the program has to tell exactly these, and the corrected record has to be the sheet with the true numbers, which is
otherwise the text that was given: its notes, blanks, ends of lines and the form of the numbers that are right. Then as many games that nobody dealt
have some numbers changed at random, and the second judge says what is to be told of them. Where a bonus or a penalty would explain the numbers, that
is told too, and the record is not written; each that is told is compared with the second judge, and of the others that may have one the first four.
"""
import random
from dataclasses import replace

from audits import MOST, corrected_to, lead, off_by_units, status, ways
from comparing import NOT_WRITTEN, Differences, compare_cases, without_amount
from dealing import Dealer, likely, line
from lexicons import GAD2, build, convert
from making import Maker
from repair_texts import amount_repair, suggested_text
from repairs import repairs
from rules import ENGLISH
from rules_texts import text_of
from ruling import random_rules

choose = random.choice
RULED = ("play", "pass", "exchange", "unknown", "rack")


def shifted(events, place, by):
    """The events with the totals of a player changed from a place on."""
    player = events[place].player
    return [replace(it, total=it.total + by) if k >= place and it.player == player else it for k, it in enumerate(events)]


def with_wrong_score(events):
    """One score that the rules do not give, carried on in the totals; and what is to be said of it."""
    places = [k for k, it in enumerate(events) if it.kind in RULED and (k + 1 == len(events) or events[k + 1].kind != "withdraw")]
    place, by = choose(places), choose([-50, -10, -5, -1, 1, 2, 5, 9, 10, 50])
    event = events[place]
    changed = shifted(events, place, by)
    changed[place] = replace(changed[place], score=event.score + by)
    return (
        changed,
        [(place, 0, f"line {place + 1}: score {event.score + by}, should be {event.score} ({'AB'[event.player]}, {event.text})")],
        {event.player: by},
    )


def with_wrong_sum(events, right, but=None):
    """One total that is not the sum, carried on or not; and what is to be said of it, with the right events: nothing if it is the right total."""
    place, by = choose([k for k in range(len(events)) if k != but]), choose([-100, -10, -1, 1, 9, 10, 100])
    event, due = events[place], right[place].total
    told = f"line {place + 1}: sum {event.total + by}, should be {due} ({'AB'[event.player]}, {event.text})"
    said = [(place, 1, told)] if event.total + by != due else []
    if events == right and place + 2 < len(events) and any(it.player == event.player for it in events[place + 1 :]) and likely(0.5):
        return [*events[:place], replace(event, total=event.total + by), *events[place + 1 :]], said, {}
    return shifted(events, place, by), said, {event.player: by}


def spoil(events, kind):
    """A sheet with known mistakes, and the lines that tell them."""
    if kind == "score":
        changed, told, shift = with_wrong_score(events)
    elif kind == "sum":
        changed, told, shift = with_wrong_sum(events, events)
    else:
        first, told, shift = with_wrong_score(events)
        changed, more, other = with_wrong_sum(first, events, told[0][0])
        told = told + more
        shift = {player: shift.get(player, 0) + other.get(player, 0) for player in (0, 1)}
    lines = [text for _, _, text in sorted(told)]
    first, sums = events[0].player, {place for place, what, _ in told if what == 1}
    for player in (first, 1 - first):
        places = [k for k, it in enumerate(events) if it.player == player]
        totals = [events[k].total for k in places]
        if shift.get(player) and places[-1] not in sums:
            lines.append(f"total of {'AB'[player]}: {totals[-1] + shift[player]}, should be {totals[-1]}")
    return changed, lines


def number_in(number, sign):
    """A number in some form in which a record may have it, or as it is written where it is corrected."""
    if sign is not None:
        return f"{number:+d}" if sign else str(number)
    digits = str(abs(number)).zfill(choose([1, 1, 1, 3]))
    return ("-" if number < 0 else choose(["", "+"])) + digits


class By:
    """A sheet that somebody wrote by hand, and the same one with other numbers."""

    def __init__(self, written, right):
        """The sheet of some events, and of others that have the same lines but for their numbers."""
        end = choose(["\n", "\r\n"])
        self.given = self.wanted = choose(["", "\ufeff"])
        for place, (event, other) in enumerate(zip(written, right)):
            head, _, _ = line(event).rstrip("\n").rsplit(" ", 2)
            given = [number_in(event.score, None), number_in(event.total, None)]
            wanted = [
                given[0] if event.score == other.score else number_in(other.score, True),
                given[1] if event.total == other.total else number_in(other.total, False),
            ]
            first, second, third = (choose([" ", " ", "\t", "   "]) for _ in range(3))
            third = choose(["", third])
            last = end if place + 1 < len(written) else choose(["", end])
            self.given += f"{head}{first}{given[0]}{second}{given[1]}{third}{last}"
            self.wanted += f"{head}{first}{wanted[0]}{second}{wanted[1]}{third}{last}"


SILENT = 4


def nicks_in(events):
    """The nicknames of the players; none of one who has no line."""
    return ["AB"[player] if any(it.player == player for it in events) else "" for player in (0, 1)]


class Sheets(Differences):
    """Sheets with mistakes."""

    def amount(self, events, listed, rules, lines):
        """The lines without what is said of a bonus or a penalty, and whether the corrected record is kept for its sake, which the second judge has
        to find too."""
        rest, said = without_amount(lines)
        may_be = off_by_units(events, *corrected_to(events, listed, rules), rules)
        self.seen["a bonus or a penalty"] += bool(said)
        self.seen["none, where a sum is off by units"] += may_be and not said
        self.expect(may_be or not said, said, "no sum is off by units")
        self.expect((NOT_WRITTEN in lines) == (bool(said) and not any(it.startswith("illegal") for it in rest)), lines, "not written")
        if said or may_be and self.seen["none, where a sum is off by units"] <= SILENT:
            repair = amount_repair(repairs(events, listed, rules), events, listed, rules)
            wanted = suggested_text("Or", repair, events).removesuffix("\n").split("\n") if repair else []
            self.expect(said == wanted, said, wanted)
        return rest, bool(said)

    def write(self, events, listed, rules, text=None):
        """Writes the inputs of a run, and gives its options."""
        (self.folder / "words").write_text("\n".join(sorted(listed)))
        (self.folder / "lexicon").write_bytes(choose([build(listed), convert(build(listed), GAD2)]))
        (self.folder / "rules").write_bytes(text_of(rules))
        (self.folder / "game").write_bytes((text or "".join(map(line, events))).encode())
        (self.folder / "out").unlink(missing_ok=True)
        return ["--rules", "rules"] if rules != ENGLISH or likely(0.2) else []

    def known(self, kind):
        """A game that was dealt for real, with mistakes that are known."""
        rules = ENGLISH if likely(0.75) else random_rules()
        dealer = Dealer(rules, choose([6, 25, 40]), choose([(), ("known", "unknown")]), choose(["whole", "mixed", "none"]), 4)
        events, _, listed = dealer.game()
        if len(events) < 2 or not any(it.kind in RULED for it in events):
            return
        listed = set(listed) - dealer.phonies
        changed, told = spoil(events, kind)
        if any(abs(it.total) > MOST for it in [*events, *changed]):
            return
        sheet = By(changed, events)
        by = self.write(changed, listed, rules, sheet.given)
        ran = self.run("audit", *by, "--corrected", "out", "words", "lexicon", "game")
        lines, held = self.amount(changed, listed, rules, ran.stdout.decode().split("\n"))
        verdict = lines[-3] if len(lines) > 2 else ""
        self.seen[f"{kind} {verdict}"] += 1
        self.expect(lines[:-3] == told and verdict.startswith(("legal", "unsettled")), kind, lines, told)
        self.expect(lines[-2:-1] == lead(verdict, changed, events, nicks_in(events)), kind, lines, "who is ahead")
        self.expect(ran.returncode == status(told, verdict or "legal") and not ran.stderr, kind, ran.returncode, ran.stderr)
        out = self.folder / "out"
        good = not out.exists() if held else out.exists() and out.read_bytes() == sheet.wanted.encode()
        self.expect(good, kind, "corrected", sheet.given, sheet.wanted)

    def unknown(self):
        """A game that nobody dealt, with numbers changed at random."""
        rules = ENGLISH if likely(0.75) else random_rules()
        maker = Maker(choose([2, 6, 40]), rules)
        events = maker.game()
        if not events or events[0].player:
            return
        for _ in range(choose([0, 1, 2, 5])):
            place = random.randrange(len(events))
            what = choose(["score", "total"])
            events[place] = replace(events[place], **{what: choose([0, 5, -5, 999_999, -999_999, getattr(events[place], what) + choose([-10, 1])])})
        if any(abs(number) > MOST for it in events for number in (it.score, it.total)):
            return
        listed = {word for word in maker.listed if 2 <= len(word) <= 15}
        by = self.write(events, listed, rules)
        told, verdicts = ways(events, listed, rules, nicks=nicks_in(events))
        ran = self.run("audit", *by, "--corrected", "out", "words", "lexicon", "game")
        lines, held = self.amount(events, listed, rules, ran.stdout.decode().removesuffix("\n").split("\n"))
        verdict = "\n".join(lines[len(told) :])
        self.seen["made " + verdict.partition(" ")[0]] += 1
        self.expect(lines[: len(told)] == told and verdict in verdicts, lines, told, verdicts[:3])
        self.expect(verdict not in verdicts or ran.returncode == status(told, verdict), "status", ran.returncode, lines)
        self.expect((self.folder / "out").exists() != (held or verdict.startswith("illegal")), "corrected", verdict)

    def without_bonus(self):
        """A game that was dealt for real, of which the bonus for a challenge was left out of the sheet but not of its totals."""
        for _ in range(40):
            dealer = Dealer(ENGLISH, 25, ("known", "unknown"), choose(["whole", "none"]), 4)
            events, _, listed = dealer.game()
            places = [k for k, it in enumerate(events) if it.kind == "challenge" and any(other.player == it.player for other in events[k + 1 :])]
            if places:
                break
        else:
            return
        place, listed = choose(places), set(listed) - dealer.phonies
        sheet = events[:place] + events[place + 1 :]
        by = self.write(sheet, listed, ENGLISH)
        ran = self.run("audit", *by, "--corrected", "out", "words", "lexicon", "game")
        _, held = self.amount(sheet, listed, ENGLISH, ran.stdout.decode().split("\n"))
        self.seen["a bonus left out, and told" if held else "a bonus left out, and not told"] += 1
        self.expect((self.folder / "out").exists() != held, "corrected", ran.stdout)

    def case(self, number):
        """A sheet with mistakes that are known, and a random one; now and then also one without the line of a bonus."""
        if number % 12 == 0:
            self.without_bonus()
        self.known(["score", "sum", "score", "sum", "both"][number % 5])
        self.unknown()


compare_cases(Sheets, Sheets.case)
