"""Compares `referee explain` with the second judge, byte by byte: compare_explains PROGRAM CASES SEED

Each case is a game that nobody dealt, or one that was dealt for real with mistakes of a director's day (`mistakes.py`). The verdict is
explained, and then one of the lines. The likely repair, with which the explanation of an illegal record may end, is compared by
`compare_repairs`. Who is ahead by the right numbers comes last, if a number is wrong and there is no likely repair. The last line says how often each
fault was explained.
"""
import random

from advice import advice
from answers import explained, lead_of, status_of
from comparing import Differences, compare_cases, suggestion, without_lead
from dealing import likely, line
from mistakes import some_inputs, with_unread_lines

choose = random.choice


class Explaining(Differences):
    """Explanations of games with mistakes."""

    def case(self):
        _, events, words, lexicon, text = some_inputs(self.put)
        remark = "" if likely(0.7) else "#note\n"
        game = self.put("game", with_unread_lines("".join(choose(["", "", remark]) + line(it) for it in events).encode()))
        for asked in (None, random.randint(0, len(events) + 2)):
            self.compare(words, lexicon, game, asked, text)

    def compare(self, words, lexicon, game, asked, text):
        by = ["--rules", "rules"] if text is not None else []
        named = [] if asked is None else [str(asked)]
        ran = self.run("explain", *by, "words", "lexicon", "game", *named)
        printed, good = without_lead(ran.stdout, lead_of(words, lexicon, game, text)) if asked is None else (ran.stdout, True)
        self.expect(good, "who is ahead", ran.stdout.decode("latin-1"), game.decode("latin-1"))
        self.seen["who is ahead"] += printed != ran.stdout
        said, likely, _ = suggestion(printed)
        self.seen["with a likely repair"] += bool(likely)
        self.expect(not likely or asked is None and said.startswith(b"illegal "), "a likely repair of line", asked, said.decode("latin-1"))
        first = said.split(b"\n")[0]
        if asked is None:
            self.seen[first.decode("latin-1").split(": ")[-1].split(" ")[0]] += 1
        told = explained(words, lexicon, game, asked, said, text)
        if said != told or ran.returncode != status_of(told) or ran.stderr != advice("explain", told, "game", game):
            self.differences += 1
            print(
                "line",
                asked,
                "status",
                ran.returncode,
                ran.stderr,
                ran.stdout.decode("latin-1"),
                "for",
                told.decode("latin-1"),
                game.decode("latin-1"),
                sep="\n",
            )


compare_cases(Explaining, lambda explaining, _: explaining.case())
