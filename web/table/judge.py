"""All that the page knows of a game: the requests to `referee serve`, and the one command whose remarks on a text have no request.

For each list with its rules a worker has one `serve` for what takes milliseconds, and starts another one when something is first asked that may take
longer, so that nobody waits for the long request of somebody else. A long request has a limit of time, and ends in `TooLong` when that is over.
"""
from __future__ import annotations

import subprocess
import threading
from dataclasses import dataclass
from html.parser import HTMLParser
from typing import Any, Optional

from referee import Answer, BadInput, Broken, Referee, TimedOut

from . import drafts
from .settings import Rules, Settings, WordList

QUICK_SECONDS = 10.0
START_SECONDS = 600.0
SOON = 3.0
ASIDE = "referee: "
NUMBERS = ("WrongScore", "WrongTotal")


class TooLong(Exception):
    """There was no answer within the limit."""


@dataclass(frozen=True)
class Filled:
    """A record that was made of a draft (`judged`), and how many numbers were put in. Its `text` is the draft with those of them that are right: from
    a line on that the rules refuse, none can be."""

    text: str
    judged: str
    number: int


@dataclass(frozen=True)
class Next:
    """What the next line of a record is about."""

    turn: Optional[str]
    is_over: bool
    out: Optional[str]
    tiles: dict[str, int]
    bag: int


class Judge:
    """The program with one list and its rules, as this page asks it."""

    def __init__(self, settings: Settings, words: WordList, rules: Rules) -> None:
        self.settings, self.list, self.rules = settings, words, rules
        self._starting, self._slow_turn = threading.Lock(), threading.Lock()
        self._quick: Optional[Referee] = None
        self._slow: Optional[Referee] = None

    # The programs.

    def _started(self) -> Referee:
        settings = self.settings
        return Referee(
            self.list.words,
            self.list.lexicon,
            rules=self.rules.file,
            first_field=settings.first_field,
            skip_others=settings.skip_others,
            program=settings.program,
            timeout=START_SECONDS,
        )

    @property
    def quick(self) -> Referee:
        """The program that answers at once."""
        with self._starting:
            if self._quick is None:
                self._quick = self._started()
            return self._quick

    @property
    def words(self) -> int:
        """How many words the list has."""
        return self.quick.words

    def close(self) -> None:
        """Ends the programs."""
        for program in (self._quick, self._slow):
            if program is not None:
                program.close()
        self._quick = self._slow = None

    def _ask(self, do: str, **members: Any) -> Answer:
        try:
            return self.quick.ask(do, timeout=QUICK_SECONDS, **members)
        except TimedOut as error:
            raise TooLong from error

    def _ask_long(self, do: str, most: Optional[float] = None, **members: Any) -> Answer:
        """The answer to a request that may take long. Whoever comes while another one is answered waits for the limit too, and no longer."""
        seconds = min(self.settings.seconds, most or self.settings.seconds)
        if not self._slow_turn.acquire(timeout=seconds):
            raise TooLong
        try:
            if self._slow is None:
                self._slow = self._started()
            return self._slow.ask(do, timeout=seconds, **members)
        except TimedOut as error:
            raise TooLong from error
        finally:
            self._slow_turn.release()

    # What is said of a record.

    def verdict(self, game: str) -> Answer:
        """The verdict, with the events as they are written; of a text that is not a record, why not."""
        try:
            return self._ask("judge", game=game, best=False)
        except BadInput as bad:
            return _why(bad)

    def line(self, draft: str, line: Optional[int] = None) -> Answer:
        """What there is to say of a line of a draft, or of the draft."""
        try:
            return self._ask("explain", game=draft, line=line, likely=False, draft=True)
        except BadInput as bad:
            return _why(bad)

    def reasons(self, draft: str) -> list[str]:
        """What explains the verdict on a draft, in sentences. They are those of the page of the record that it makes, but for those that rest on a
        number which nobody wrote, and for the tiles that a rack would have with one that it lacks."""
        judged = self._up_to_refused(draft)
        try:
            page = self._ask("page", game=judged, likely=False).text
        except BadInput:
            return self.remarks(judged)
        lines = _texts_of(page or "", "why")
        if not drafts.has_holes(draft):
            return lines
        sentences, said, meant = _sentences_of(lines), self._facts(judged, draft=False), self._facts(draft, draft=True)
        if len(said) != len(sentences):
            return [line for line in lines if "written" not in line]
        names = {fact["name"] for fact in meant}
        facts = [(text, fact) for text, fact in zip(sentences, said) if not (fact["name"] == "RackTooBig" and names & {"NotOnRack", "LeftOver"})]
        same = [text for text, fact in facts if fact in meant]
        return [line for text in same or [text for text, fact in facts if fact["name"] in names] for line in text]

    def _up_to_refused(self, draft: str) -> str:
        """The record that a draft makes, for its reasons: up to the line that the rules refuse, which has its right numbers, if its play is known."""
        filled, verdict = self.filled(draft), self.line(draft)
        line, play = verdict.get("line"), verdict.get("play")
        if verdict["verdict"] != "illegal" or not line or not play:
            return filled.judged
        fields = drafts.fields_of(drafts.lines_of(draft)[line - 1])
        if fields is None or fields.missing != 2:
            return filled.judged
        return _with_numbers("\n".join(drafts.lines_of(filled.text)[:line]) + "\n", {line: play["score"]})

    def _facts(self, game: str, draft: bool) -> list[dict[str, Any]]:
        """What is said of a text, as values."""
        try:
            return self._ask("explain", game=game, likely=False, draft=draft).get("facts") or []
        except BadInput:
            return []

    def remarks(self, game: str) -> list[str]:
        """What the program says aside of a text: what its line lacks, what kind of file it seems to be, and which lines are not read."""
        ran = self._run(["tidy", "-"], game)
        lines = [line[len(ASIDE) :] for line in ran.stderr.splitlines() if line.startswith(ASIDE)]
        return [
            line.replace("standard input line", "Line", 1) if "standard input line" in line else line.replace("standard input", "The text", 1)
            for line in lines
        ]

    def board(self, draft: str, line: Optional[int] = None) -> Optional[Answer]:
        """The board after the last event, or before a line; nothing if the text is not a draft."""
        try:
            return self._ask("board", game=draft, line=line, draft=True)
        except BadInput:
            return None

    def audit(self, game: str, is_patient: bool) -> Answer:
        """The wrong numbers of a sheet, with the corrected sheet as its text, if that stands. A bonus that would explain them may take long."""
        try:
            return self._ask_long("audit", most=None if is_patient else SOON, game=game, corrected=True)
        except BadInput as bad:
            return _why(bad)

    def righted(self, draft: str) -> Optional[str]:
        """The record with the right numbers, if only numbers are wrong and that is found soon."""
        if (self.line(draft).get("fault") or {}).get("name") not in NUMBERS:
            return None
        try:
            answer = self._ask_long("fill", most=SOON, draft=draft, filled=True)
        except (BadInput, TooLong):
            return None
        return answer.text if answer["verdict"] in ("legal", "unsettled") and answer.get("wrong") else None

    def ahead(self, draft: str) -> Optional[dict[str, Any]]:
        """Who is ahead, and by how many points."""
        found: Optional[dict[str, Any]] = self._fill(draft).get("ahead")
        return found

    def filled(self, draft: str) -> Filled:
        """A draft with the numbers that are missing, up to the line that the rules refuse. Only what is before that line is filled: whether a bonus
        would explain the sums of a game that does not stand may take long to find, and is not asked here."""
        lines = drafts.lines_of(draft)
        holes = {number: fields.missing for number, line in enumerate(lines, 1) if (fields := drafts.fields_of(line)) and fields.missing}
        if not holes:
            return Filled(draft, draft, 0)
        verdict = self.line(draft)
        refused = (verdict.get("line") or 1) if verdict["verdict"] in ("illegal", "bad record") else len(lines) + 1
        if (verdict.get("fault") or {}).get("name") in NUMBERS:
            answer = self._fill(draft)
            refused = answer.get("line") or len(lines) + 1
        else:
            answer = self._fill("\n".join(lines[: refused - 1]) + "\n")
        put_in = {it["line"]: it for it in answer.get("lines") or [] if it["line"] < refused}
        whole = [_with_ends(line, put_in[number]) if number in put_in else line for number, line in enumerate(lines, 1)]
        zeros = {number: 0 for number, many in holes.items() if many == 2 and number not in put_in}
        return Filled("\n".join(whole), _with_numbers("\n".join(whole), zeros), sum(1 + it["score_put_in"] for it in put_in.values()))

    def _fill(self, draft: str) -> Answer:
        """What `fill` says of a draft."""
        try:
            return self._ask("fill", draft=draft)
        except BadInput as bad:
            return _why(bad)

    def next(self, game: str) -> Next:
        """What the next line is about; nothing is known of it after a text that is not a draft."""
        try:
            answer = self._ask("next", draft=game)
        except BadInput:
            return Next(None, False, None, {}, 0)
        nicks = [player["nick"] for player in answer["players"]]
        of = {seat: nick for seat, nick in enumerate(nicks, 1)}
        return Next(
            of.get(answer["turn"]),
            answer["complete"],
            of.get(answer["out"]),
            {player["nick"]: player["tiles"] for player in answer["players"]},
            answer["bag"],
        )

    def word(self, words: list[str]) -> Answer:
        """Whether words are acceptable."""
        try:
            return self._ask("word", words=words)
        except BadInput as bad:
            return _why(bad)

    def top(self, game: str, rack: Optional[str], line: Optional[int]) -> Answer:
        """The best plays."""
        try:
            return self._ask_long("top", game=game, rack=rack, line=line, number=60)
        except BadInput as bad:
            return _why(bad)

    def page(self, game: str) -> str:
        """The page of a game, with the likely repair, if that is found soon."""
        for likely in (True, False):
            try:
                return self._ask_long("page", most=SOON if likely else None, game=game, likely=likely).text or ""
            except TooLong:
                if not likely:
                    raise
        return ""

    def repairs(self, draft: str, is_patient: bool) -> Answer:
        """The repairs of a sheet, the likeliest first, if they are found soon, or within the limit."""
        try:
            return self._ask_long("repair", most=None if is_patient else SOON, game=draft, draft=drafts.has_holes(draft))
        except BadInput as bad:
            return _why(bad)

    def annotated(self, game: str) -> Optional[str]:
        """The record with a note after each turn, if it is one."""
        try:
            return self._ask_long("annotate", game=game).text
        except BadInput:
            return None

    def compare(self, first: str, second: str) -> Answer:
        """What differs between two drafts, with the merged record, if there is one."""
        try:
            return self._ask_long("compare", first=first, second=second, draft=drafts.has_holes(first) or drafts.has_holes(second))
        except BadInput as bad:
            return _why(bad)

    def _run(self, words: list[str], game: str) -> subprocess.CompletedProcess[str]:
        """Runs a command, with a game as its standard input."""
        try:
            return subprocess.run(
                [self.settings.program, *words],
                input=game,
                capture_output=True,
                encoding="utf-8",
                errors="replace",
                timeout=self.settings.seconds,
                check=False,
            )
        except subprocess.TimeoutExpired as error:
            raise TooLong from error
        except OSError as error:
            raise Broken(error) from error


class Judges:
    """The programs of a page: one for each list with its rules, which is started when it is first asked."""

    def __init__(self, settings: Settings) -> None:
        self.settings, self._starting = settings, threading.Lock()
        self._of: dict[tuple[str, str], Judge] = {}
        self.lists = {it.name: it for it in settings.lists}
        self.rules = {it.name: it for it in settings.rules}

    def names(self, words: str = "", rules: str = "") -> tuple[str, str]:
        """The names of a list and of rules that there are: those that are asked for, or the first ones."""
        return (words if words in self.lists else next(iter(self.lists)), rules if rules in self.rules else next(iter(self.rules)))

    def of(self, names: tuple[str, str]) -> Judge:
        """The program for a list and rules."""
        with self._starting:
            if names not in self._of:
                self._of[names] = Judge(self.settings, self.lists[names[0]], self.rules[names[1]])
            return self._of[names]

    def close(self) -> None:
        """Ends the programs."""
        for judge in self._of.values():
            judge.close()


def _why(bad: BadInput) -> Answer:
    """The object that says why there is no other answer."""
    return bad.answer if bad.answer is not None else Answer(verdict=str(bad), line=None, fault=None)


def _with_ends(line: str, put_in: dict[str, Any]) -> str:
    """A line with the numbers that are put in."""
    numbers = [f"{put_in['score']:+d}"] if put_in["score_put_in"] else []
    return " ".join([line.rstrip(), *numbers, str(put_in["total"])])


def _with_numbers(draft: str, scores: dict[int, int]) -> str:
    """A draft with scores at the ends of these lines, and with the totals that are missing, each of which is the player's last total and the
    score."""
    totals: dict[str, int] = {}
    lines = []
    for number, line in enumerate(drafts.lines_of(draft), 1):
        fields = drafts.fields_of(line)
        if fields and len(fields.numbers) <= 2:
            given = fields.numbers or ([f"{scores[number]:+d}"] if number in scores else [])
            if len(given) == 1 and drafts.NUMBER.match(given[0]):
                given = [*given, str(totals.get(fields.nick, 0) + int(given[0]))]
            line = line.rstrip() + "".join(f" {it}" for it in given[len(fields.numbers) :])
            if len(given) == 2 and drafts.NUMBER.match(given[1]):
                totals[fields.nick] = int(given[1])
        lines.append(line)
    return "\n".join(lines)


def _sentences_of(lines: list[str]) -> list[list[str]]:
    """Sentences, each with the lines that list what it is about."""
    found: list[list[str]] = []
    for line in lines:
        if found and line.startswith(" "):
            found[-1].append(line)
        else:
            found.append([line])
    return found


class _Texts(HTMLParser):
    """The texts of the elements of a page that are of one class and of no other."""

    def __init__(self, kind: str) -> None:
        super().__init__()
        self.kind, self.texts, self.is_inside = kind, [""], False

    def handle_starttag(self, tag: str, attrs: list[tuple[str, Optional[str]]]) -> None:
        self.is_inside = self.is_inside or ("class", self.kind) in attrs

    def handle_endtag(self, tag: str) -> None:
        if self.is_inside and tag == "p":
            self.is_inside = False
            self.texts.append("")

    def handle_data(self, data: str) -> None:
        if self.is_inside:
            self.texts[-1] += data


def _texts_of(page: str, kind: str) -> list[str]:
    """The lines of the paragraphs of a class."""
    parser = _Texts(kind)
    parser.feed(page)
    return [line for text in parser.texts for line in text.splitlines() if line.strip()]
