"""What each command of the program is to print or to write, from the bytes of its inputs, and its exit status: by the second judge."""
import re

import audits
import explains
import rules_texts
from advice import advice
from archive_lines import states_latin
from best import MANY, best_plays
from deals import event_of, judge_deal, settled_verdicts, settled_ways
from games import board_after, go_through
from hints import beside, operands
from lexicons import build, check, convert
from records import Fault, read
from rules import ENGLISH
from sheets import sheet

BOM = b"\xef\xbb\xbf"
BAD_LINE = b"bad line: no event is on it or after it\n"
BAD_RACK = b"bad rack\n"
NO_GAME = b"no game\n"
VERDICTS = {"legal": 0, "illegal": 1, "unsettled": 2, "bad": 3, "no": 3}


def first_fields(data):
    """A word list as it is read with `--first-field`."""
    return b"\n".join(b"" if text[:1] == b"#" else re.match(b"[^ \t]*", text)[0] for text in data.split(b"\n"))


def words_of(data):
    """The words of a list, or the line of its first fault."""
    words = set()
    for number, text in enumerate(data.removeprefix(BOM).split(b"\n"), 1):
        text = text.removesuffix(b"\r")
        if not text.isalpha():
            if text:
                return f"bad word list line {number}: BadLetter\n"
            continue
        if not 2 <= len(text) <= 15:
            return f"bad word list line {number}: BadLength\n"
        words.add(text.decode().upper())
    return words


def told_of(report, game, players):
    """A report of the events on the lines 1, 2 and so on by A and B, with the lines and nicknames of the record."""
    lines = lines_of(game)
    if report.startswith("illegal"):
        place, fault = report.removeprefix("illegal line ").split(":", 1)
        return f"illegal line {lines[int(place) - 1]}:{fault}".encode()
    verdict, *events = report.encode().split(b"\n")
    for k, text in enumerate(events[:-1]):
        _, nick, rest = text.split(b" ", 2)
        events[k] = b"%d %s %s" % (lines[k], players[nick == b"B"][0], rest)
    return b"\n".join([verdict, *events])


def answered(words, lexicon, game, text, answer, bad_record=Fault.text):
    """The first fault of the inputs, a rules text before them (None for none: the English rules), or what is to be printed of the
    words, the players, the events and the rules. `bad_record` says what is wrong with the record."""
    try:
        rules = ENGLISH if text is None else rules_texts.read(text)
    except rules_texts.Fault as fault:
        return fault.text()
    listed = words_of(words)
    if isinstance(listed, str):
        return listed.encode()
    agreed = check(listed, lexicon)
    if not agreed.startswith("ok"):
        return agreed.encode()
    try:
        players, said = read(game)
    except Fault as fault:
        return bad_record(fault)
    return answer(listed, players, [event_of(it) for it in said], rules)


def judged(words, lexicon, game, text=None):
    """What `judge` is to print."""

    def report(listed, players, events, rules):
        return told_of(judge_deal(events, listed, rules), game, players)

    return answered(words, lexicon, game, text, report)


def settled(words, lexicon, game, text=None):
    """What `judge --settle` may print, one of these."""

    def ways(listed, players, events, rules):
        return [told_of(way, game, players) for way in settled_ways(events, listed, rules)]

    answers = answered(words, lexicon, game, text, ways)
    return answers if isinstance(answers, list) else [answers]


def audited(words, lexicon, game, text=None):
    """What `audit` may print, one of these."""

    def lines(listed, players, events, rules):
        if not events:
            return NO_GAME
        numbers = [k for k, line in enumerate(game.removeprefix(BOM).split(b"\n"), 1) if line.startswith(b">")]
        nicks = [player[0].decode("latin-1") if player else "" for player in players]
        wrong, verdicts = audits.ways(events, listed, rules, numbers, nicks)
        return ["\n".join([*wrong, verdict, ""]).encode("latin-1") for verdict in verdicts]

    answers = answered(words, lexicon, game, text, lines)
    return answers if isinstance(answers, list) else [answers]


def explained(words, lexicon, game, asked, printed, text=None):
    """What `explain` is to print of a record, or of a line where one is asked for, with the verdict that was printed, if that can be. Where no deal
    gives the racks, what was printed says what was found of them."""
    told = printed.split(b"\n")[0]

    def sentences(listed, players, events, rules):
        if not events:
            return NO_GAME
        verdicts = [audits.on_line(verdict, lines_of(game)) for verdict in settled_verdicts(events, listed, rules)]
        verdict = told.decode("latin-1") if told.decode("latin-1") in verdicts else verdicts[0]
        said = explains.explained(verdict, game, players, events, lines_of(game), listed, rules, asked, printed.decode("latin-1"))
        return said.decode("latin-1").encode() if states_latin(game) else said

    def fault_told(fault):
        said = explains.explained_fault(game, fault)
        return said.decode("latin-1").encode() if states_latin(game) else said

    return answered(words, lexicon, game, text, sentences, fault_told)


def lead_of(words, lexicon, game, text=None):
    """The lines that may be said of a sheet as a whole if a number of it is wrong: who is ahead by the right numbers, and by the sheet if that is not
    the same. They are empty if no number is wrong, or if the rules do not allow the corrected record."""

    def leads(listed, players, events, rules):
        nicks = [player[0].decode("latin-1") if player else "" for player in players]
        wrong, verdicts = audits.ways(events, listed, rules, lines_of(game), nicks)
        said = ["".join(f"{line}\n" for line in verdict.split("\n")[1:]) if wrong else "" for verdict in verdicts]
        return [it.encode() if states_latin(game) else it.encode("latin-1") for it in said]

    told = answered(words, lexicon, game, text, leads)
    return told if isinstance(told, list) else [b""]


def audit_status(output):
    """The exit status that goes with the lines of an audit."""
    lines = output.removesuffix(b"\n").split(b"\n")
    wrong = [line for line in lines if line.startswith((b"line ", b"total of "))]
    return max(status_of(lines[len(wrong)]), 1 if wrong else 0)


def place_before(lines, before):
    """The place of the first event on a line or after it, on whose lines events are; without a line, after the last event."""
    return len(lines) if before is None else next((k for k, line in enumerate(lines) if line >= before), None)


def tiles_named(rack):
    """The tiles of a rack that is named; none if it is not a rack."""
    return rack if re.fullmatch("[A-Z?]{1,7}", rack) else None


def topped(words, lexicon, game, rack=None, text=None, number=MANY, before=None):
    """What `top` is to print: so many plays, before a line where one is named; without a rack, with that of the line."""

    def plays(listed, players, events, rules):
        place = place_before(lines_of(game), before)
        if place is None:
            return BAD_LINE
        shown = tiles_named(rack) if rack else (events[place].rack if place < len(events) else None)
        if not shown:
            return BAD_RACK
        verdict = go_through(events[:place], listed, rules=rules)[0]
        if verdict.startswith("illegal"):
            return told_of(verdict, game, players)
        return best_plays(board_after(events[:place], listed, rules), shown, listed, rules, number)[1].encode()

    return answered(words, lexicon, game, text, plays) if rack is None or tiles_named(rack) else BAD_RACK


def lines_of(game):
    """The lines of a record on which its events stand."""
    return [k for k, text in enumerate(game.removeprefix(BOM).split(b"\n"), 1) if text.startswith(b">")]


def boarded(game, before=None, text=None):
    """What `board` is to print, before a line where one is named."""
    try:
        rules = ENGLISH if text is None else rules_texts.read(text)
    except rules_texts.Fault as fault:
        return fault.text()
    try:
        players, said = read(game)
    except Fault as fault:
        return fault.text()
    lines = lines_of(game)
    asked = place_before(lines, before)
    if asked is None:
        return BAD_LINE
    return sheet(players, [event_of(it) for it in said], lines, asked, rules)


def checked(words, lexicon):
    """What `check` is to print."""
    listed = words_of(words)
    return (listed if isinstance(listed, str) else check(listed, lexicon)).encode()


def built(words):
    """What `build` is to write."""
    listed = words_of(words)
    return listed.encode() if isinstance(listed, str) else build(listed)


def converted(lexicon, name):
    """What `convert` is to write, of the format `gad1` or `gad2`."""
    return convert(lexicon, name.upper().encode())


def status_of(output):
    """The exit status that goes with a first line."""
    return VERDICTS.get(output.split(b"\n")[0].split(b":")[0].split(b" ")[0].decode("latin-1"), 0)


def error_of(words, output, game):
    """What standard error gets in addition to an answer to a command line: where an input is bad, what may help; where `judge` leaves a game open,
    that a search may settle it; where the file `game` is no game, why."""
    hint = beside(words, output) if output.startswith(b"bad ") else b""
    names = operands([str(it) for it in words])
    return hint + advice(words[0], output, game, game.read_bytes(), names[3] if words[0] == "top" and len(names) > 3 else None)
