"""Compares the objects that the program prints for programs with the second judge: compare_objects PROGRAM CASES SEED

Each case is a game that nobody dealt, or one that was dealt for real with mistakes of a director's day (`mistakes.py`), sometimes with an input
that is bad. The objects of `judge`, `judge --settle`, `audit`, `explain`, `top`, `board` and `check` are compared key by key with the values of the
second judge, and the exit status with that of the report. What was seen of events, turns and faults is counted.
"""
import json
import random

from answers import lines_of
from comparing import Differences, compare_cases
from dealing import likely, line
from explained_objects import without_amount, without_likely
from making import in_either_case, random_rack
from mistakes import some_inputs, with_unread_lines
from objects import audited_objects, boarded_object, checked_object, explained_objects, judged_objects, topped_object
from rules import ENGLISH

STATUSES = {"ok": 0, "legal": 0, "illegal": 1, "unsettled": 2}
TILES = list(ENGLISH.tiles.elements())


def some_line(game):
    """A line to ask about, mostly one of an event; sometimes none."""
    lines = lines_of(game)
    return None if likely(0.3) else random.choice([*lines, *lines, 1, len(lines) + 3])


class Objects(Differences):
    """Objects of games with mistakes."""

    def case(self):
        _, events, words, lexicon, text = some_inputs(self.put)
        game = self.put("game", with_unread_lines("".join(map(line, events)).encode()))
        if random.random() < 0.1:
            game = self.put("game", game[: random.randrange(len(game) + 1)])
        by, pair = (["--rules", "rules"] if text is not None else []), ["words", "lexicon"]
        for options in ([], ["--settle"]):
            self.compare(["judge", *options, *by, *pair, "game"], judged_objects(words, lexicon, game, text, bool(options)))
        self.compare(["audit", *by, *pair, "game"], audited_objects(words, lexicon, game, text))
        for asked in (None, some_line(game)):
            line_asked = [] if asked is None else [str(asked)]
            self.compare(["explain", *by, *pair, "game", *line_asked], explained_objects(words, lexicon, game, asked, text), asked)
        before, number = some_line(game), random.choice([1, 9, 10, 11, 40, 100])
        rack = (
            random.choice(["", "AB1", "ABCDEFGH"]) if likely(0.1) else in_either_case(random_rack(TILES)) if before is None or likely(0.5) else None
        )
        asked = ["--before", str(before)] if before is not None else []
        told = topped_object(words, lexicon, game, rack, text, number, before)
        self.compare(["top", "--number", str(number), *asked, *by, *pair, "game", *([] if rack is None else [rack])], [told])
        self.compare(["board", *asked, *by, "game"], [boarded_object(game, before, text)])
        self.compare(["check", *pair], [checked_object(words, lexicon)])

    def compare(self, asked, wanted, explained=None):
        """Compares an object with those that the second judge has. What repair `explain` finds likely is compared by compare_repairs,
        and what bonus or penalty `audit` finds by compare_audits."""
        ran = self.run(asked[0], "--json", *asked[1:])
        told = without_amount(without_likely(json.loads(ran.stdout), explained))
        self.seen[f"{asked[0]}: {told['verdict']}"] += 1
        if told["fault"]:
            self.seen[f"fault: {', '.join(told['fault'])}"] += 1
        for number in told.get("wrong") or []:
            self.seen[f"wrong: {number['wrong']}"] += 1
        for fact in told.get("facts") or []:
            self.seen[f"fact: {fact['name']}"] += 1
        for unread in told.get("unread_lines") or []:
            self.seen[f"not read: {unread['why']}"] += 1
        for event in told.get("events") or []:
            self.seen[f"event: {event['kind']}"] += 1
            self.seen[f"turn: {event['turn']}"] += 1
        self.expect(ran.stdout.count(b"\n") == 1 and ran.stdout.endswith(b"\n"), ran.stdout)
        self.expect(list(told) == list(wanted[0]), asked, list(told), list(wanted[0]))
        self.expect(told in wanted, asked, told, wanted[0])
        status = max(STATUSES.get(told["verdict"], 3), bool(told.get("wrong")))
        self.expect(ran.returncode == status, ran.returncode, told["verdict"])


compare_cases(Objects, lambda objects, _: objects.case())
