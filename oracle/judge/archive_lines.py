"""What `archive` says of a game, by the second judge: the fields of its line, and the two forms of a line."""
import json

from deals import decide, event_of
from games import go_through
from records import Fault, read
from rules import ENGLISH
from unread import unread as unread_lines

NAMES = ["name", "verdict", "ending", "line", "fault", "events", "player1", "total1", "player2", "total2", "unlisted", "unread_lines"]
JSON_NAMES = [*NAMES[:-1], "fault_name", "expected", NAMES[-1]]
NUMBERS = {"line", "events", "total1", "total2", "unlisted", "unread_lines"}
NUMBER_FAULTS = ("WrongScore ", "WrongTotal ")
STATUSES = {"legal": 0, "illegal": 1, "unsettled": 2, "bad record": 3, "no game": 3, "unread": 4}
ESCAPES = {"\\": "\\\\", "\t": "\\t", "\n": "\\n"}


def fields(name, verdict, **others):
    """A line, by the names of its fields; what is not said is None."""
    return dict.fromkeys(NAMES) | {"name": name, "verdict": verdict} | others


def unread(name, why):
    return fields(name, "unread", fault=why)


def states_latin(game):
    """Whether a record states that its encoding is ISO-8859-1."""
    lines = (line.removesuffix(b"\r") for line in game.removeprefix(b"\xef\xbb\xbf").split(b"\n"))
    pragmas = ([part for part in line.replace(b"\t", b" ").split(b" ") if part] for line in lines if line.startswith(b"#"))
    return any(len(it) > 1 and it[0] == b"#character-encoding" and it[1].lower() == b"iso-8859-1" for it in pragmas)


def text_of(name, latin):
    """A name as text."""
    return name.decode("latin-1") if latin else name.decode(errors="replace")


def known(players, events, latin=False):
    """What is said of the players and the events of a record, whatever its verdict is."""
    told = {"events": len(events)}
    for seat, number in enumerate("12"):
        totals = [event.total for event in events if event.player == seat]
        nick = text_of(players[seat][0], latin) if players[seat] else ""
        told |= {f"player{number}": nick or None, f"total{number}": totals[-1] if totals else None}
    return told


def ways(name, game, listed, rules=ENGLISH, dealt=False):
    """The lines of which one has to be said of the bytes of a game. One that was dealt for real is legal where each event is allowed."""
    try:
        players, said = read(game)
    except Fault as bad:
        return [fields(name, "bad record", line=bad.line or None, fault=bad.why)]
    events = [event_of(it) for it in said]
    told = known(players, events, states_latin(game)) | {"unread_lines": len(unread_lines(game))}
    if not events:
        return [fields(name, "no game", unlisted=0, **told)]
    numbers = [k for k, text in enumerate(game.removeprefix(b"\xef\xbb\xbf").split(b"\n"), 1) if text.startswith(b">")]
    allowed, lines = go_through(events, listed, rules=rules)
    told["unlisted"] = None if allowed.startswith("illegal") else sum(line.unlisted != "" for line in lines)
    legal = fields(name, "legal", ending=allowed.split()[-1], **told)
    if dealt and not allowed.startswith("illegal"):
        return [legal]
    verdict = decide(events, listed, rules)[0].strip()
    if verdict.startswith("illegal"):
        place, fault = verdict.removeprefix("illegal line ").split(": ")
        return [fields(name, "illegal", line=numbers[int(place) - 1], fault=fault, **told)]
    if verdict == "unsettled":
        none = [fields(name, "illegal", line=number, fault="NoDeal", **told) for number in numbers]
        return [legal, *none, fields(name, "unsettled", **told)]
    return [legal]


def tab_line(told):
    """A line in the form with tabs."""
    texts = ["-" if told[it] is None else str(told[it]) for it in NAMES]
    return "\t".join("".join(ESCAPES.get(symbol, symbol) for symbol in text) for text in texts) + "\n"


def read_tab_line(text):
    """The fields of a line without its LF. A nickname of `-` cannot be told from none."""
    texts = dict(zip(NAMES, map(unescaped, text.split("\t")), strict=True))
    told = {it: None if text == "-" else int(text) if it in NUMBERS else text for it, text in texts.items()}
    return told | {"name": texts["name"]}


def unescaped(text):
    """A field with its escapes undone."""
    return "".join({"t": "\t", "n": "\n", "\\": "\\"}[it[0]] + it[1:] if k else it for k, it in split_escapes(text))


def split_escapes(name):
    """The parts of an escaped name, each but the first after a backslash that begins an escape."""
    parts, at = [(0, "")], 0
    while at < len(name):
        if name[at] == "\\":
            at += 1
            parts.append((1, name[at]))
        else:
            parts[-1] = parts[-1][0], parts[-1][1] + name[at]
        at += 1
    return parts


def read_json_line(text):
    """The fields of a JSON object, which are in their order. The last two say again what the fault does."""
    told = json.loads(text)
    assert list(told) == JSON_NAMES, text
    fault = None if told["verdict"] == "unread" else told["fault"]
    assert told.pop("fault_name") == (fault and fault.split()[0]), text
    assert told.pop("expected") == (int(fault.split()[1]) if fault and fault.startswith(NUMBER_FAULTS) else None), text
    return told


def status_of(lines):
    """The exit status after these lines."""
    return max((STATUSES[told["verdict"]] for told in lines), default=0)
