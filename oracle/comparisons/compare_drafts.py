"""Compares `referee fill` with records of which numbers were left out, and with the second judge: compare_drafts PROGRAM CASES SEED

Each game is dealt for real. Of its record some totals, and some scores with their totals, are left out, and the program has to give the record back
byte for byte: its notes, blanks, ends of lines and the form of the numbers that are written. In every third case one or two of the written numbers
are wrong, and the second judge, which reads the draft by its own code, says what is to be told and what the record is then. As many games that nobody
dealt are compared with it too, and drafts that were damaged at random. Last come broken drafts: the second judge says which line is at fault, and
which field it lacks or has too many. The objects of `--json` and the answers of `serve` have to say the same.
"""
import json
import random
import subprocess
from dataclasses import replace

from audits import MOST, status, ways
from comparing import Differences, compare_cases, without_amount
from comparisons import compared_objects
from dealing import Dealer, likely, line
from deals import event_of
from draft_repairs import draft_repair_text, draft_repairs
from drafts import DraftFault, fill, filled_text, lines_of, next_lines, read, stand_in
from fuzz import TEXT_DAMAGES, damaged
from lexicons import GAD2, build, convert
from making import Maker
from records import read as record_of
from rules import ENGLISH
from rules_texts import text_of
from ruling import random_rules

choose = random.choice
WORDS = {
    "no event": "After the colon comes neither a position and a word nor a code.",
    "no word": "After the position comes no word.",
    "no score": "The line has no score. The rules allow several for a challenge or a penalty, so it has to be written.",
    "too many": "More than a score and a total come after the word or the code.",
}


def number_in(number, sign):
    """A number in some form in which a record may have it."""
    digits = str(abs(number)).zfill(choose([1, 1, 1, 3]))
    return ("-" if number < 0 else choose(["", "+"])) + digits if likely(0.5) else f"{number:+d}" if sign else str(number)


class Draft:
    """A record that somebody typed, and the same one with some of its numbers left out: where they stood alone at the end of the line."""

    def __init__(self, events, share):
        end = choose(["\n", "\r\n"])
        self.whole = self.draft = choose(["", "\ufeff"]) + choose(["", f"#player1 A A{end}", f"#note a note > with : in it{end}"])
        self.lacks = []
        for place, event in enumerate(events):
            head, _, _ = line(event).rstrip("\n").rsplit(" ", 2)
            missing = choose([1, 2]) if likely(share) else 0
            if missing == 2 and event.kind in ("challenge", "time"):
                missing = 1
            first, second, third = (choose([" ", " ", "\t", "   "]) for _ in range(3))
            score = number_in(event.score, True) if missing < 2 else f"{event.score:+d}"
            total = number_in(event.total, False) if missing == 0 else str(event.total)
            first, second = (" " if missing == 2 else first), (" " if missing else second)
            gap = choose(["", " "]) if missing else ""
            third = choose(["", third]) if not missing else ""
            last = end if place + 1 < len(events) else choose(["", end])
            self.whole += f"{head}{first}{score}{second}{total}{third}{last}"
            kept = {0: f"{head}{first}{score}{second}{total}{third}", 1: f"{head}{first}{score}{gap}", 2: f"{head}{gap}"}[missing]
            self.draft += f"{kept}{last}"
            self.lacks.append(missing)
            if last and likely(0.15):
                note = choose(["", "#note well", "  "])
                self.whole += note + end
                self.draft += note + end
        self.whole, self.draft = self.whole.encode(), self.draft.encode()


def counts(lacks):
    """How many scores and totals are put in."""
    return sum(it == 2 for it in lacks), sum(it > 0 for it in lacks)


def completed(draft):
    """A draft with a score and a total in the place of those that are missing."""
    mark = b"\xef\xbb\xbf" if draft.startswith(b"\xef\xbb\xbf") else b""
    return mark + b"\n".join(it.removesuffix(b"\r") + stand_in(it) for it in lines_of(draft))


def put_in(lacks):
    """The line that says how many numbers were put in."""
    scores, totals = counts(lacks)
    return f"put in: {scores} score{'s' * (scores != 1)}, {totals} total{'s' * (totals != 1)}"


def said_of(fault):
    """What is printed of the first fault of a draft."""
    line = f" line {fault.line}" if fault.line else ""
    return f"bad record{line}: {fault.why}\n" + (WORDS[fault.amiss] + "\n" if fault.amiss else "")


class Drafts(Differences):
    """Drafts of games."""

    def write(self, text, listed, rules):
        """Writes the inputs of a run, and gives its options."""
        self.put("words", "\n".join(sorted(listed)).encode())
        self.put("lexicon", choose([build(listed), convert(build(listed), GAD2)]))
        self.put("rules", text_of(rules))
        self.put("draft", text)
        (self.folder / "out").unlink(missing_ok=True)
        self.by = ["--rules", "rules"] if rules != ENGLISH or likely(0.2) else []
        return self.by

    def fill(self, text, listed, rules):
        """What the program prints of a draft, its exit status, and the record that it writes, if it writes one."""
        by = self.write(text, listed, rules)
        ran = self.run("fill", *by, "words", "lexicon", "draft", "out")
        out = self.folder / "out"
        return ran.stdout.decode("latin-1").removesuffix("\n").split("\n"), ran.returncode, out.read_bytes() if out.exists() else None

    def known(self, number):
        """A game that was dealt for real, of whose record numbers are left out."""
        rules = ENGLISH if likely(0.75) else random_rules()
        dealer = Dealer(rules, choose([6, 25, 40]), choose([(), ("known", "unknown")]), choose(["whole", "mixed", "none"]), 4)
        events, _, listed = dealer.game()
        if not events or events[0].player or any(abs(it.total) > MOST for it in events):
            return
        listed = set(listed) - dealer.phonies
        wrong = number % 3 == 2
        self.events = self.spoiled(events) if wrong else events
        made = Draft(self.events, choose([0.2, 0.6, 1]))
        lines, code, out = self.fill(made.draft, listed, rules)
        self.seen["wrong" if wrong else "right"] += 1
        if wrong:
            self.compare(made.draft, self.events, made.lacks, listed, rules, lines, code, out)
        else:
            self.expect(out == made.whole, "record", made.draft, out, made.whole)
            self.expect(lines[:1] == [put_in(made.lacks)] and lines[1].startswith(("legal", "unsettled")), lines, made.lacks)
            self.expect(code == {"legal": 0, "unsettled": 2}[lines[1].split()[0]], code, lines)
        self.foresee(made, listed, rules)
        if len(events) <= 10:
            self.paired(events, listed, rules)

    def foresee(self, made, listed, rules):
        """Compares what is said of the next line of a draft, or of some lines of one, with the second judge."""
        cut = random.choice([None, random.randrange(made.draft.count(b"\n") + 1)])
        draft = made.draft if cut is None else b"".join(made.draft.splitlines(keepends=True)[:cut])
        players, written = read(draft)
        events = [replace(event, score=it.score or 0, total=it.total or 0) for event, it in zip(self.events, written)]
        nicks = [players[seat][0].decode() if players[seat] else "" for seat in (0, 1)]
        said, is_refused = next_lines(events, listed, rules, [it.line for it in written], nicks)
        by = self.write(draft, listed, rules)
        ran = self.run("fill", "--next", *by, "words", "lexicon", "draft")
        self.seen["next " + said[-4].partition(":")[0].removeprefix("A ").removeprefix("B ")] += 1
        self.expect(ran.stdout.decode() == "".join(f"{it}\n" for it in said) and ran.returncode == is_refused, draft, ran.stdout, said)

    def spoiled(self, events):
        """The same events with one or two numbers changed."""
        events = list(events)
        for _ in range(choose([1, 2])):
            place, what = random.randrange(len(events)), choose(["score", "total"])
            events[place] = replace(events[place], **{what: getattr(events[place], what) + choose([-10, -1, 1, 5, 100])})
        return events

    def compare(self, draft, events, wanted, listed, rules, lines, code, out):
        """Compares what was printed and written with the second judge, which reads the draft by its own code."""
        players, written = read(draft)
        events = [replace(event, score=it.score or 0, total=it.total or 0) for event, it in zip(events, written)]
        lacks = [(it.score is None) + (it.total is None) for it in written]
        self.expect(lacks == wanted, "lacks", draft, lacks, wanted)
        numbers = [it.line for it in written]
        nicks = [players[seat][0].decode("latin-1") if players[seat] else "" for seat in (0, 1)]
        found = fill(events, lacks, listed, rules, numbers, nicks)
        sheet = [
            replace(event, score=right.score if missing == 2 else event.score, total=right.total if missing else event.total)
            for event, right, missing in zip(events, found.right, lacks)
        ]
        told, verdicts = ways(sheet, listed, rules, numbers, nicks)
        rest, said = without_amount(lines[1:])
        verdict = "\n".join(rest[len(found.told) :])
        self.seen["told " + verdict.partition(" ")[0]] += 1
        self.expect(lines[0] == put_in(lacks[: found.stop]), lines, lacks)
        self.expect(rest[: len(found.told)] == found.told and verdict in verdicts, lines, found.told, verdicts[:3])
        self.expect(verdict not in verdicts or code == status(found.told, verdict), "status", code, lines)
        kept = not said and not verdict.startswith("illegal")
        self.expect((out is not None) == kept, "written", lines)
        if out is not None:
            self.expect(out == filled_text(draft, written, [(it.score, it.total) for it in found.right]), "record", draft, out)
        told = [
            {"line": number, "score": it.score, "total": it.total, "score_put_in": missing == 2}
            for number, it, missing in zip(numbers, found.right, lacks)
            if missing
        ]
        self.objects(draft, verdict, code, out, lacks[: found.stop], told[: sum(map(bool, lacks[: found.stop]))])
        self.others(draft, written, sheet, lacks, found.stop)
        if len(sheet) <= 8 and likely(0.1):
            self.repaired(draft, sheet, lacks, listed, rules, numbers, nicks)

    def repaired(self, draft, sheet, lacks, listed, rules, numbers, nicks):
        """Compares what `repair` says of a draft with the second judge, by which a number that is missing counts nowhere."""
        ran = self.run("repair", "--draft", *self.by, "words", "lexicon", "draft")
        verdict, _, told = ran.stdout.decode("latin-1").partition("\n")
        found, alone, _ = draft_repairs(sheet, lacks, listed, rules)
        if ran.returncode != 1 or not all(it.is_known for it in [*found, *([alone] if alone else [])]):
            return
        self.seen["repaired " + ("whole" if not any(lacks) else "with a number missing")] += 1
        wanted = draft_repair_text(sheet, lacks, listed, rules, nicks, numbers)
        self.expect(told == wanted, "repair", draft, verdict, told, wanted)

    def paired(self, events, listed, rules):
        """Compares what `compare` says of two drafts of one game with the second judge, by which a number that is missing counts nowhere."""
        self.by = self.write(b"", listed, rules)
        sheets = [Draft(self.spoiled(events) if likely(0.3) else events, choose([0.3, 1])).draft for _ in range(2)]
        for name, text in zip(("one", "two"), sheets):
            self.put(name, text)
        ran = self.run("compare", "--json", "--draft", *self.by, "words", "lexicon", "one", "two")
        text = (self.folder / "rules").read_bytes() if self.by else None
        for wanted in compared_objects((self.folder / "words").read_bytes(), *sheets, text, True):
            told = json.loads(ran.stdout)
            self.seen["compared: " + wanted["verdict"]] += 1
            self.expect(told == wanted and list(told) == list(wanted), "compare", *sheets, told, wanted)

    def others(self, draft, written, sheet, lacks, stop):
        """Compares what `explain` and `board` say of a draft with what they say of the record that the second judge makes of it."""
        last = max([it.line for it in written][:stop], default=None)
        if last is None or stop is not None:
            return
        self.put("sheet", filled_text(draft, written, [(it.score, it.total) for it in sheet]))
        at = str(random.randint(1, last))
        board = ["--before", at] if likely(0.5) else []
        rules = self.by if self.by else []
        told, wanted = (self.run("board", *more, *rules, *board, name).stdout for more, name in ((["--draft"], "draft"), ([], "sheet")))
        self.seen["board"] += 1
        if not any(b"challenge" in it.what for it in written):
            self.expect(told == wanted, "board", draft, told, wanted)
        if not any(lacks):
            told, wanted = (
                self.run("explain", *more, *rules, "words", "lexicon", name, at) for more, name in ((["--draft"], "draft"), ([], "sheet"))
            )
            self.expect((told.stdout, told.returncode) == (wanted.stdout, wanted.returncode), "explain", draft, told.stdout, wanted.stdout)

    def objects(self, draft, verdict, code, out, lacks, lines):
        """Compares the object of `fill --json` with the numbers that are put in, and the answers of `serve` with the objects."""
        ran, ahead = (self.run("fill", *words, "--json", *self.by, "words", "lexicon", "draft") for words in ([], ["--next"]))
        told, foretold = json.loads(ran.stdout), json.loads(ahead.stdout)
        scores, totals = counts(lacks)
        self.expect(told["put_in"] == {"scores": scores, "totals": totals} and told["lines"] == lines, "object", draft, ran.stdout, lines)
        self.expect(told["verdict"] == verdict.split()[0] and ran.returncode == code, "verdict", draft, ran.stdout)
        try:
            text, record = draft.decode(), None if out is None else out.decode()
        except UnicodeDecodeError:
            return
        asked = [{"do": "fill", "draft": text, "filled": True}, {"do": "fill", "draft": text}, {"do": "next", "draft": text}]
        self.put("requests", b"".join(json.dumps(it).encode() + b"\n" for it in asked))
        with open(self.folder / "requests", "rb") as requests:
            served = subprocess.run(
                [self.program, "serve", *self.by, "words", "lexicon"], cwd=self.folder, stdin=requests, capture_output=True, check=False, timeout=600
            )
        answers = [json.loads(it) for it in served.stdout.splitlines()[1:]]
        bare = {"id": None, "status": code, "answer": told}
        wanted = [bare | ({} if record is None else {"text": record}), bare, {"id": None, "status": ahead.returncode, "answer": foretold}]
        self.expect(answers == wanted, "served", draft, answers, wanted)

    def ruined(self):
        """A draft that was damaged at random."""
        rules = ENGLISH if likely(0.75) else random_rules()
        dealer = Dealer(rules, choose([3, 8, 20]), (), choose(["whole", "mixed", "none"]), 4)
        events, _, listed = dealer.game()
        if not events or any(abs(it.total) > MOST for it in events):
            return
        listed = set(listed) - dealer.phonies
        draft = damaged(Draft(events, choose([0.3, 0.8, 1])).draft, TEXT_DAMAGES, choose([1, 1, 2, 5]))
        lines, code, out = self.fill(draft, listed, rules)
        try:
            written = read(draft)[1]
        except DraftFault as fault:
            self.seen["ruined " + (fault.amiss or fault.why)] += 1
            self.expect("\n".join([*lines, ""]) == said_of(fault) and code == 3 and out is None, draft, lines, said_of(fault))
            return
        self.seen["ruined, but a draft" if written else "ruined, without an event"] += 1
        if not written:
            self.expect(lines == ["no game"] and code == 3 and out is None, draft, lines)
            return
        lacks = [(it.score is None) + (it.total is None) for it in written]
        self.compare(draft, [event_of(it) for it in record_of(completed(draft))[1]], lacks, listed, rules, lines, code, out)

    def unknown(self):
        """A game that nobody dealt, with numbers left out and some changed."""
        rules = ENGLISH if likely(0.75) else random_rules()
        maker = Maker(choose([2, 6, 40]), rules)
        events = maker.game()
        if not events or events[0].player:
            return
        events = self.spoiled(events) if likely(0.5) else events
        if any(abs(number) > MOST for it in events for number in (it.score, it.total)):
            return
        listed = {word for word in maker.listed if 2 <= len(word) <= 15}
        made = Draft(events, choose([0, 0.3, 1]))
        self.events = events
        self.compare(made.draft, events, made.lacks, listed, rules, *self.fill(made.draft, listed, rules))
        self.foresee(made, listed, rules)

    def broken(self):
        """A draft with a line that is not one of a draft."""
        good = [b">A: 8D WORD", b">B: -", b">A: AEINRST 8E AT +4", b">B: DORWAAE -DOR +0 0", b">A: --", b">B: (challenge) +5", b">A: (time) -10 3"]
        lines = [choose(good) for _ in range(random.randrange(4))]
        fields = [
            choose([b"8D", b"WORD", b"AEINRST", b"-", b"--", b"-3", b"(time)", b"(challenge)", b"(AB)", b"+4", b"16", b"x9", b"16A", b"W0RD", b"(8E"])
            for _ in range(random.randrange(8))
        ]
        lines.insert(random.randrange(len(lines) + 1), b">" + choose([b"A:", b"A:", b"A:", b"A", b"A B:", b"C:"]) + b" " + b" ".join(fields))
        text = choose([b"\n", b"\r\n"]).join(lines)
        try:
            read(text)
            wanted = None
        except DraftFault as fault:
            wanted = fault
        self.write(text, {"AT"}, ENGLISH)
        ran = self.run("fill", "words", "lexicon", "draft", "out")
        if wanted is None:
            self.seen["not broken"] += 1
            self.expect(not ran.stdout.startswith(b"bad record"), text, ran.stdout)
            return
        self.seen["broken " + (wanted.amiss or wanted.why)] += 1
        said = said_of(wanted)
        self.expect(ran.stdout.decode() == said and ran.returncode == 3 and not (self.folder / "out").exists(), text, ran.stdout, said)

    def case(self, number):
        """A game that was dealt, one that was not, a damaged draft, and broken ones."""
        self.known(number)
        self.unknown()
        self.ruined()
        for _ in range(3):
            self.broken()


compare_cases(Drafts, Drafts.case)
