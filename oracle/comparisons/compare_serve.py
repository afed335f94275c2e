"""Compares the answers of `serve` with the second judge and with the commands: compare_serve PROGRAM CASES SEED

Each case is a word list with its lexicon, sometimes with a rules text, and a process of `serve` by these. It is asked of games that nobody dealt, of
games that were dealt for real with mistakes of a director's day, and of damaged records, by every command; some lines are no requests. Games are
judged as they go on, some of them twice, and turns with the same rack on other boards and with another rack on the same board, so that best plays
that are known have to be those of the board and the rack. Each answer is compared with the value of the second judge, and some with what the command
of that name writes of the same bytes. If an input is bad, the process has to say so as `check --json` does, and to end.
"""
import json
import random
import subprocess
from dataclasses import replace

from answers import lines_of
from comparing import Differences, compare_cases
from comparison_texts import STATUSES, agrees_with_itself
from dealing import in_order, likely, line
from deals import events_of
from explained_objects import without_amount, without_likely
from games import Event
from making import in_either_case, random_rack
from mistakes import MOST, some_game, some_inputs, with_mistake
from objects import checked_object
from records import Fault
from repair_objects import happened
from rules import ENGLISH
from served import answers_to

TILES = list(ENGLISH.tiles.elements())
WORDS = ["AT", "QI", "qi", "WORD", "xyzzy", "A", "", "A1", "ABCDEFGHIJKLMNO", "ABCDEFGHIJKLMNOP"]
ODD = [
    b"",
    b"{",
    b"[]",
    b"null",
    b"7",
    b'"judge"',
    b'{"do": "judge"}',
    b'{"id": [], "do": "tidy", "game": ""}',
    b'{"id": 1}',
    b'{"id": 1, "do": null}',
    b'{"id": 1, "do": 2}',
]
ODD += [
    b'{"id": "x", "do": "judged", "game": ""}',
    b'{"id": 2, "do": "tidy", "game": "", "line": 1}',
    b'{"id": -0, "do": "top", "game": "", "line": -0}',
    b"\xff",
    b'{"id": 1e999}',
]
ODD += [
    b'{"id": 1.5, "do": "board", "game": "", "line": 4294967296}',
    b'{"do": "word", "words": ["AT"], "words": []}',
    b'{"do": "word", "words": ["AT", 7]}',
    b'{"do": "top", "game": ""}',
]
ODD += [
    b'{"do": "repair", "game": "", "number": 0}',
    b'{"do": "repair", "game": "", "number": 101}',
    b'{"do": "repair", "game": "", "repaired": 1}',
    b'{"do": "repair", "game": "", "line": 1}',
]
ODD += [
    b'{"do": "compare", "first": ""}',
    b'{"do": "compare", "second": ""}',
    b'{"do": "compare", "first": "", "second": "", "game": ""}',
    b'{"do": "compare", "first": "", "second": 1}',
]
ODD += [
    b'{"do": "annotate"}',
    b'{"do": "annotate", "game": "", "number": 1.5}',
    b'{"do": "annotate", "game": "", "likely": true}',
    b'{"do": "annotate", "game": "", "number": 101}',
]


def some_line(game):
    """A line to ask about, mostly one of an event."""
    lines = lines_of(game)
    return None if likely(0.3) else random.choice([*lines, *lines, 0, 1, len(lines) + 3, 2**32 - 1])


def other_sheet(game):
    """Another sheet of a game: the same, one with a mistake, one in which a score, a total or a rack is another one, or one without its last line."""
    try:
        events = events_of(game.decode("latin-1"))
    except Fault:
        return game
    what = random.random()
    if not events or what < 0.2:
        return game
    place = random.randrange(len(events))
    number = random.choice([-10, -1, 1, 100])
    if what < 0.4:
        events = with_mistake(events) or events
    elif what < 0.5:
        events = events[:-1]
    else:
        parts = random.choice(
            [{"score": events[place].score + number}, {"total": events[place].total + number}, {"rack": in_order(random.sample(TILES, 7))}]
        )
        events[place] = replace(events[place], **parts)
    return "".join(map(line, events)).encode() if all(max(abs(it.score), abs(it.total)) <= MOST for it in events) else game


def sheets_request(game):
    """A request to compare two sheets, and the command that asks the same."""
    first, second = (it.decode("latin-1").encode("ascii", "replace").decode() for it in random.sample([game, other_sheet(game)], 2))
    merged = likely(0.5)
    return {"do": "compare", "first": first, "second": second, "merged": merged}, ["compare", *([] if merged else ["--json"])]


def some_request(game):
    """A request about a game, and the words of the command line that ask the same of the file `game`; none where no command does."""
    text, at, number = game.decode("latin-1").encode("ascii", "replace").decode(), some_line(game), random.choice([None, 1, 9, 10, 11, 40, 100])
    do = random.choice(["judge", "judge", "explain", "audit", "board", "top", "word", "check", "tidy", "page", "repair", "compare", "annotate"])
    before = [] if at is None else ["--before", str(at)]
    if do == "judge":
        settle, best = likely(0.5), likely(0.7)
        return {"do": do, "game": text, "settle": settle, "best": best}, ["judge", "--json", *["--settle"] * settle] if best else None
    if do in ("explain", "page"):
        told, found = {"do": do, "game": text, "likely": likely(0.3)}, {
            "explain": ["explain", "--json", *([] if at is None else [str(at)])],
            "page": ["page"],
        }[do]
        return told | ({"line": at} if do == "explain" else {}), found if told["likely"] or (do == "explain" and at is not None) else None
    if do == "repair":
        asked, repaired = [] if number is None else ["--number", str(number)], likely(0.5)
        return {"do": do, "game": text, "number": number, "repaired": repaired}, ["repair", *([] if repaired else ["--json"]), *asked]
    if do == "compare":
        return sheets_request(game)
    if do == "annotate":
        return {"do": do, "game": text, "number": number}, ["annotate", *([] if number is None else ["--top", str(number)])]
    if do == "board":
        return {"do": do, "game": text, "line": at}, ["board", "--json", *before]
    if do == "top":
        rack = random.choice(["AB1", "ABCDEFGH", "é"]) if likely(0.1) else in_either_case(random_rack(TILES)) if at is None or likely(0.5) else None
        named = [] if rack is None else [rack.upper()]  # on the command line a rack is in capitals
        return {"do": do, "game": text, "line": at, "rack": rack, "number": number}, [
            "top",
            "--json",
            *before,
            *([] if number is None else ["--number", str(number)]),
            *named,
        ]
    if do == "check":
        return {"do": do}, ["check", "--json"]
    if do == "word":
        return {"do": do, "words": random.choices(WORDS[:5] if likely(0.7) else WORDS, k=random.randint(1, 4))}, None
    return {"do": do, "game": text}, {"audit": ["audit", "--json"], "tidy": ["tidy"]}[do]


def passed(events, rack):
    """The pass of the other player after some events, with a rack."""
    player = 1 - events[-1].player if events else 0
    totals = [it.total for it in events if it.player == player]
    return Event(player, "pass", 0, totals[-1] if totals else 0, "-", rack=rack)


class Served(Differences):
    """Answers of processes."""

    def case(self):
        _, events, words, lexicon, text = some_inputs(self.put)
        by, pair = (["--rules", "rules"] if text is not None else []), ["words", "lexicon"]
        if likely(0.1):
            lexicon = self.put("lexicon", lexicon[:-1])
        asked = self.some_asked(events)
        end = random.choice([b"\n", b"\r\n", b""]) if asked[-1][0] else b"\n"
        ran = subprocess.run(
            [self.program, "serve", *by, *pair],
            cwd=self.folder,
            input=b"\n".join(it for it, _ in asked) + end,
            capture_output=True,
            check=False,
            timeout=600,
        )
        told = ran.stdout.split(b"\n")
        self.expect(told.pop() == b"", ran.stdout[-100:])
        first = json.loads(told.pop(0))
        checked = checked_object(words, lexicon)
        if "ready" not in first:
            self.seen[f"not ready: {first['verdict']}"] += 1
            self.expect(first == checked and ran.returncode == 3 and not told, first, checked, ran.returncode)
            return
        self.expect(
            list(first) == ["ready", "words", "version"] and first["words"] == checked.get("words") and ran.returncode == 0, first, ran.returncode
        )
        self.expect(len(told) == len(asked), len(told), len(asked))
        for (request, command), answer in zip(asked, told):
            self.compare(words, lexicon, request, json.loads(answer), text, answer)
            if command and likely(0.3):
                self.compare_command(
                    json.loads(request), command, by if command[0] not in ("tidy", "check") else [], pair, json.loads(answer), answer
                )

    def some_asked(self, events):
        """Requests, each with the words of the command line that ask the same, and lines that are none."""
        asked = []
        for number in range(12):
            others = some_game(ENGLISH)[0]
            is_told = number < 4 or any(abs(it.score) > MOST or abs(it.total) > MOST for it in others)
            game = "".join(map(line, events if is_told else others)).encode()
            if likely(0.15):
                game = game[: random.randrange(len(game) + 1)]
            request, command = some_request(game)
            request = {"id": random.choice([number, -number, f"n{number}", "é\n\"", 2**63 + number])} | request
            asked.append((json.dumps(request, ensure_ascii=likely(0.5)).encode(), command))
        asked += [(it, None) for it in random.choices(ODD, k=3)]
        random.shuffle(asked)
        return asked + [(json.dumps({"id": "on"} | request).encode(), command) for request, command in self.going_on(events)]

    def going_on(self, events):
        """Requests to judge a game as it goes on, some of them twice, and with a pass at its end that shows one of two racks."""
        racks = [in_order(random.sample(TILES, 7)) for _ in range(2)]
        for number in sorted(random.choices(range(len(events) + 1), k=5)):
            game = events[:number] + ([passed(events[:number], random.choice(racks))] if likely(0.5) else [])
            settle = likely(0.2)
            yield {"do": "judge", "game": "".join(map(line, game)), "settle": settle}, ["judge", "--json", *["--settle"] * settle]

    def compare(self, words, lexicon, request, told, text, answer):
        """Compares an answer with those of the second judge."""
        wanted, is_request = answers_to(words, lexicon, request, text, told.get("text") or "")
        self.seen[f"status {told['status']}"] += 1
        if is_request:
            self.seen[json.loads(request)["do"]] += 1
        said = {key: value for key, value in told.items() if key != "error"}
        if is_request and json.loads(request).get("likely", True) and isinstance(said.get("answer"), dict):
            said["answer"] = without_amount(without_likely(said["answer"], json.loads(request).get("line")))
        self.expect(any(self.is_wanted(said, it) for it in wanted), request, answer, wanted[0])
        self.expect(("error" in told) == (told["status"] == 64), answer)

    def is_wanted(self, said, wanted):
        """Whether an answer is one that the second judge expects, as far as it knows that."""
        told, text, answer = dict(wanted.answer), said.get("text"), said.get("answer")
        if not wanted.is_whole and "answer" not in told:
            self.seen["sheets of which only the counts are compared"] += 1
            merged = {} if text is None else {"text": answer["merged"]}
            return said == told | {"status": STATUSES[answer["verdict"]], "answer": answer} | merged and agrees_with_itself(answer)
        if not wanted.is_whole:
            self.seen["repairs of which only the verdict is compared"] += 1
            said = {key: value for key, value in said.items() if key != "text"} | {"answer": {key: answer.get(key) for key in told["answer"]}}
        if told.get("text", "") is None and text is not None:
            told["text"] = text
            if wanted.kept is None:
                return said == told and text.startswith("<!DOCTYPE html>")
            self.seen["repaired sheets"] += 1
            bare = [[(it.player, happened(it), it.score, it.total) for it in events] for events in (events_of(text), wanted.kept)]
            return said == told and bare[0] == bare[1]
        return said == told and list(said) == list(told)

    def compare_command(self, request, command, by, pair, told, answer):
        """Compares an answer with what a command writes of the same bytes."""
        name, *options = command
        for file in [key for key in ("game", "first", "second") if key in request]:
            self.put(file, request[file].encode())
        rack = options.pop() if name == "top" and request.get("rack") is not None else None
        at = options.pop() if name == "explain" and request.get("line") is not None else None
        sheets = {"compare": ["first", "second"], "check": []}.get(name, ["game"])
        files = ["game"] if name in ("tidy", "board") else [*pair, *sheets]
        behind = [it for it in (rack, at) if it is not None] + (["-"] if name in ("page", "annotate") else [])
        out = {"repair": "--repaired", "compare": "--merged"}.get(name) if "--json" not in options else None
        (self.folder / "out").unlink(missing_ok=True)
        ran = self.run(name, *options, *by, *([out, "out"] if out else []), *files, *behind)
        self.expect(ran.returncode == told["status"], command, ran.returncode, answer)
        self.seen[f"beside {name}"] += 1
        if out:
            made = self.folder / "out"
            self.expect((made.read_bytes().decode() if made.exists() else None) == told.get("text"), command, ran.stdout, answer)
        elif name in ("tidy", "page", "annotate"):
            if "text" in told:
                self.expect(ran.stdout.decode() == told["text"], command, ran.stdout, answer)
        else:
            self.expect(answer.endswith(b',"answer":' + ran.stdout.removesuffix(b"\n") + b"}"), command, ran.stdout, answer)


compare_cases(Served, lambda served, _: served.case())
