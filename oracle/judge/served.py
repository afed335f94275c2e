"""What `serve` is to answer to a line, by the second judge: the id, the status of the command, and its object or its text."""
import json
import re
from dataclasses import dataclass

from annotations import notes_of, with_notes
from answers import VERDICTS, answered, lines_of, words_of
from audits import on_line
from comparisons import compared_objects
from deals import settled_verdicts
from objects import audited_objects, boarded_object, checked_object, explained_objects, head, judged_objects, refused, topped_object
from records import tidy
from repair_objects import repaired_objects

LONGEST = 4 << 20
KEYS = {
    "judge": {"game", "settle", "best"},
    "explain": {"game", "line", "likely", "draft"},
    "audit": {"game", "corrected"},
    "board": {"game", "line", "draft"},
    "top": {"game", "line", "rack", "number"},
    "word": {"words"},
    "check": set(),
    "tidy": {"game"},
    "page": {"game", "likely"},
    "repair": {"game", "number", "repaired", "draft"},
    "compare": {"first", "second", "merged", "draft"},
    "annotate": {"game", "number"},
    "fill": {"draft", "filled"},
    "next": {"draft"},
}
NEEDED = {"word": ("words",), "check": (), "compare": ("first", "second"), "fill": ("draft",), "next": ("draft",)}
TEXTS, FLAGS = ("game", "first", "second", "rack"), ("settle", "best", "corrected", "likely", "repaired", "merged", "filled")
DRAFTS = ("fill", "next")  # the commands whose `draft` is a text; that of others says that their `game` is one
STATUSES = {"ok": 0, "legal": 0, "acceptable": 0, "illegal": 1, "not acceptable": 1, "unsettled": 2, "agree": 0, "differ": 1}


class NoRequest(Exception):
    """A line asks for nothing; `id` is what its answer has."""

    def __init__(self, id=None):
        super().__init__()
        self.id = id


def parsed(line):
    """The object of a line."""
    if len(line.removesuffix(b"\n")) > LONGEST or depth_of(line) > 127:
        raise NoRequest
    try:
        told = json.loads(line.decode(), parse_constant=lambda _: fail(), parse_float=finite, parse_int=finite)
    except (ValueError, RecursionError) as error:
        raise NoRequest from error
    if not has_whole_signs(told):
        raise NoRequest
    return told


def fail():
    """`NaN` and `Infinity` are no JSON."""
    raise ValueError


def finite(text):
    """A number: one of 64 bits, or a float. One that no float has is refused."""
    if float(text) in (float("inf"), float("-inf")):
        raise ValueError
    is_whole = re.fullmatch("-?[0-9]+", text) and text != "-0" and -(2**63) <= int(text) < 2**64
    return int(text) if is_whole else float(text)


def depth_of(line):
    """How deep the arrays and objects of a JSON text nest."""
    deep, most = 0, 0
    for sign in re.findall(rb'"(?:[^"\\]|\\.)*"|[\[\]{}]', line, re.DOTALL):
        deep += (sign in b"[{") - (sign in b"]}")
        most = max(most, deep)
    return most


def has_whole_signs(told):
    """Whether no text of a value has half a sign: a surrogate without its other half."""
    if isinstance(told, str):
        return not re.search("[\ud800-\udfff]", told)
    if isinstance(told, dict):
        return all(has_whole_signs(it) for pair in told.items() for it in pair)
    return not isinstance(told, list) or all(has_whole_signs(it) for it in told)


def is_number(value):
    return isinstance(value, (int, float)) and not isinstance(value, bool)


def request_of(told):
    """The id and the members of a request."""
    if not isinstance(told, dict):
        raise NoRequest
    told = {key: value for key, value in told.items() if value is not None or key not in ("id", "do")}
    id = told.pop("id", None)
    if id is not None and not isinstance(id, str) and not is_number(id):
        raise NoRequest
    do = told.pop("do", None)
    if not isinstance(do, str):
        raise NoRequest(id if do is not None else None)
    if do not in KEYS or told.keys() - KEYS[do]:
        raise NoRequest(id)
    return id, do, {key: value for key, value in told.items() if value is not None}


def check_members(id, do, said):
    """That each member is what it has to be."""
    numbers = {"line": (0, 2**32 - 1), "number": (1, 100)}
    texts, flags = [*TEXTS, *["draft"] * (do in DRAFTS)], [*FLAGS, *["draft"] * (do not in DRAFTS)]
    good = all(isinstance(said[key], str) for key in texts if key in said)
    good &= all(isinstance(said[key], bool) for key in flags if key in said)
    good &= all(
        isinstance(said[key], int) and is_number(said[key]) and least <= said[key] <= most for key, (least, most) in numbers.items() if key in said
    )
    good &= all(key in said for key in NEEDED.get(do, ("game",)))
    if do == "word":
        good = good and isinstance(said["words"], list) and bool(said["words"]) and all(isinstance(it, str) for it in said["words"])
    if do == "top":
        good &= "line" in said or "rack" in said
    if not good:
        raise NoRequest(id)


def ruled(listed, texts):
    """The ruling on words."""
    if not all(re.fullmatch("[A-Za-z]{2,15}", text) for text in texts):
        return head("bad word")
    words = [{"word": text.upper(), "acceptable": text.upper() in listed} for text in texts]
    return head("acceptable" if all(it["acceptable"] for it in words) else "not acceptable") | {"words": words}


def plain(told):
    """The object of a judged game without what is answered of its events."""
    if "events" not in told:
        return told
    bare = dict.fromkeys(("word", "turn", "best", "unlisted"))
    events = [it | bare | ({"tiles": None} if it["kind"] in ("play", "withdraw") else {}) for it in told["events"]]
    return told | {"players": [it | {"left": None} for it in told["players"]], "events": events}


def objects_for(words, lexicon, do, said, text):
    """The objects that may be answered; of `tidy`, `page` and `annotate` only those that say why there is no text, and of `compare` none if the
    second judge does not know it."""
    game, line = said.get("game", "").encode(), said.get("line")
    if do == "judge":
        told = judged_objects(words, lexicon, game, text, said.get("settle", False))
        return told if said.get("best", True) else [plain(it) for it in told]
    if do == "explain":
        return explained_objects(words, lexicon, game, line, text)
    if do == "audit":
        return audited_objects(words, lexicon, game, text)
    if do == "board":
        return [boarded_object(game, line, text)]
    if do == "top":
        rack = said.get("rack")  # unlike on the command line, its letters may be small
        capitals = rack.upper() if rack and rack.isascii() else rack
        return [topped_object(words, lexicon, game, capitals, text, said.get("number", 10), line)]
    if do == "word":
        return [ruled(words_of(words), said["words"])]
    if do == "check":
        return [checked_object(words, lexicon)]
    if do in ("page", "annotate"):
        return explained_objects(words, lexicon, game, None, text)
    if do == "repair":
        return repaired_objects(words, lexicon, game, text, said.get("number", 10))
    if do == "compare":
        return compared_objects(words, said["first"].encode(), said["second"].encode(), text, said.get("draft", False))
    told = tidy(game)
    return [refused(told)] if told.startswith(b"bad record") else []


def status_of(told):
    """The status that goes with an object."""
    return max(STATUSES.get(told["verdict"], 3), bool(told.get("wrong")))


@dataclass
class Wanted:
    """An answer without `error`, in which a text may be None: then there is some text. If it is not whole, only its keys are known, of its object
    too. `kept` are the events of a record that is its text, if they are known."""

    answer: dict
    is_whole: bool = True
    kept: list | None = None


def annotated_ways(words, lexicon, game, number, text, printed):
    """The statuses and the records with notes that may be answered; what was `printed` says which tiles cannot be together."""

    def ways(listed, players, events, rules):
        verdicts = [on_line(it, lines_of(game)) for it in settled_verdicts(events, listed, rules)]
        made = [with_notes(game, notes_of(game, players, events, listed, rules, it, number, printed)) for it in verdicts]
        return [(VERDICTS[verdict.split()[0]], told.decode("utf-8", "replace")) for verdict, told in zip(verdicts, made)] if events else []

    answer = answered(words, lexicon, game, text, ways)
    return answer if isinstance(answer, list) else []


def repaired(id, said, told):
    """The answer with an object of `repair`."""
    answer = {"id": id, "status": status_of(told.told), "answer": told.told}
    is_kept = said.get("repaired", False) and told.kept is not None
    return Wanted(answer | ({"text": None} if is_kept else {}), told.is_whole, told.kept if is_kept else None)


def compared(id, said, told):
    """The answer with an object of `compare`."""
    merged = told.get("merged") if said.get("merged", False) else None
    return Wanted({"id": id, "status": status_of(told), "answer": told} | ({} if merged is None else {"text": merged}))


def answers_to(words, lexicon, line, text=None, printed=""):
    """The answers that a line may get, and whether it is a request. What was `printed` on it says which tiles of a sheet with notes cannot be
    together."""
    try:
        id, do, said = request_of(parsed(line))
        check_members(id, do, said)
    except NoRequest as none:
        return [Wanted({"id": none.id, "status": 64})], False
    if do == "annotate":
        ways = annotated_ways(words, lexicon, said["game"].encode(), said.get("number", 1), text, printed)
        if ways:
            return [Wanted({"id": id, "status": status, "text": made}) for status, made in ways], True
    told = objects_for(words, lexicon, do, said, text)
    if do == "repair":
        return [repaired(id, said, it) for it in told], True
    if do == "compare":
        return [compared(id, said, it) for it in told] or [Wanted({"id": id}, False)], True
    if do == "tidy" and not told:
        return [Wanted({"id": id, "status": 0, "text": tidy(said["game"].encode()).decode("utf-8", "replace")})], True
    answers = [{"id": id, "status": status_of(it), "answer": it} for it in told]
    if do == "page" and "explained" in told[0]:
        answers = [{"id": id, "status": it["status"], "text": None} for it in answers]
    return [Wanted(it) for it in answers], True
