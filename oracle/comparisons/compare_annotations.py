"""Compares `referee annotate` with the second judge: compare_annotations PROGRAM CASES SEED

Each case is a game that nobody dealt, or one that was dealt for real with mistakes of a director's day (`mistakes.py`), with ends of lines of
either kind, notes of its own, or a byte order mark. The annotated record is compared byte by byte; and it is judged again, with the same
answer on lines that have moved.
"""
import random

import audits
from advice import advice
from annotations import MARK, notes_of, with_notes
from answers import lines_of, status_of, words_of
from comparing import Differences, compare_cases
from dealing import likely, line
from deals import event_of, settled_verdicts
from mistakes import some_inputs, with_unread_lines
from records import Fault, read
from unread import unread_advice


def dressed(game):
    """A record as people keep it: with notes, another end of its lines, or a mark."""
    lines = game.split(b"\n")
    if likely(0.5):
        lines.insert(random.randrange(len(lines)), b"#note a good one: 8A WORD")
    if likely(0.3):
        lines = [b"#title Tuesday", *lines]
    if likely(0.3):
        lines = [it + b"\r" if it and likely(0.9) else it for it in lines]
    game = b"\n".join(lines)
    return (MARK if likely(0.2) else b"") + (game[:-1] if likely(0.2) and game.endswith(b"\n") else game)


class Annotations(Differences):
    """Records with notes."""

    def case(self):
        rules, events, words, _, text = some_inputs(self.put)
        game = self.put("game", dressed(with_unread_lines("".join(map(line, events)).encode())))
        by = ["--rules", "rules"] if text is not None else []
        (self.folder / "out").unlink(missing_ok=True)
        number = random.choice([1, 1, 2, 3, 12])
        ran = self.run("annotate", *by, *(["--top", str(number)] if number > 1 else []), "words", "lexicon", "game", "out")
        told = (self.folder / "out").read_bytes() if (self.folder / "out").exists() else None
        try:
            players, said = read(game)
        except Fault as fault:
            self.seen["bad record"] += 1
            good = ran.stdout == fault.text() and ran.returncode == 3 and told is None and ran.stderr == advice("annotate", ran.stdout, "game", game)
            return self.expect(good, ran, fault.text(), game)
        if not said:
            self.seen["no game"] += 1
            return self.expect(ran.stdout == b"no game\n" and ran.returncode == 3 and told is None, ran, game)
        self.compare(ran, told, game, players, [event_of(it) for it in said], words_of(words), rules, number)
        self.again(by, told, game)

    def compare(self, ran, told, game, players, events, listed, rules, number):
        verdicts = [audits.on_line(it, lines_of(game)) for it in settled_verdicts(events, listed, rules)]
        verdict = ran.stdout.decode("latin-1").removesuffix("\n")
        self.seen[verdict.split(": ")[-1].split(" ")[0]] += 1
        if told is None or verdict not in verdicts:
            return self.expect(False, ran, verdicts[:3], game)
        self.expect(ran.returncode == status_of(ran.stdout) and ran.stderr == unread_advice("game", game), ran)
        notes = notes_of(game, players, events, listed, rules, verdict, number, told.decode("latin-1"))
        self.seen["notes"] += len([it for it in notes if it])
        return self.expect(told == with_notes(game, notes), told, with_notes(game, notes))

    def again(self, by, told, game):
        """The annotated record is judged as the record is."""
        self.put("told", told or b"")
        first, second = (self.run("judge", *by, "words", "lexicon", name) for name in ("game", "told"))
        kinds = [ran.stdout.split(b"\n")[0].split(b": ")[-1] for ran in (first, second)]
        self.expect(first.returncode == second.returncode and kinds[0] == kinds[1], kinds, game)


compare_cases(Annotations, lambda annotations, _: annotations.case())
