"""Tries the client in `python/`: client PROGRAM CASES SEED

The client has to give the answers of the commands for as many games as CASES says, to start a program again that is killed or does not answer, and to
answer 1,000 requests from 8 threads, each with its own answer.
"""
import json
import os
import random
import signal
import sys
import tempfile
from concurrent.futures import ThreadPoolExecutor
from functools import partial
from pathlib import Path

from comparing import Differences
from dealing import line
from mistakes import some_inputs
from referee import BadInput, BadRequest, Broken, Died, Garbled, OutOfTurn, Referee, TimedOut, text_of

WORD = ">A: DORWAAE 8E WORD +16 16\n"
# A program that is ready, and then does what a program of the name should not.
STUB = """#!/usr/bin/env python3
import sys, time
print('{"ready":true,"words":2,"version":"0"}', flush=True)
for line in sys.stdin:
    %s
"""
FAULTS = {
    "sys.exit(3)": Died,
    "time.sleep(60)": TimedOut,
    "sys.stdout.write('{\"id\":1,\"sta'); sys.exit(0)": Garbled,
    "print('[1]', flush=True)": Garbled,
    "print('no object', flush=True)": Garbled,
    "print('{\"id\":99,\"status\":0,\"answer\":{}}', flush=True)": OutOfTurn,
}
WRONG = ">A: DORWAAE 8E WORD +16 18\n>B: - +0 0\n"


class Client(Differences):
    """A client, compared with the commands."""

    def raised(self, kind, ask, *what):
        """That a call raises this kind of exception, which is given back."""
        try:
            told = ask()
        except kind as error:
            return error
        self.expect(False, "nothing was raised", kind, told, *what)
        return None

    def games(self, cases):
        """The same answers as the commands."""
        for _ in range(max(1, cases // 10)):
            _, events, words, _, text = some_inputs(self.put)
            by = ["--rules", "rules"] if text is not None else []
            at = dict(rules=self.folder / "rules") if text is not None else {}
            with Referee(self.folder / "words", self.folder / "lexicon", program=self.program, timeout=600, **at) as referee:
                self.expect(referee.words == len(set(words.split())) and referee.version == "1.2.0", referee.words, words)
                for place in random.choices(range(len(events) + 1), k=10):
                    self.game(referee, by, self.put("game", "".join(map(line, events[:place])).encode()))

    def game(self, referee, by, game):
        """The same answers about one game."""
        at = random.choice([None, 1, 3, 1000])
        asks = {
            ("judge",): lambda: referee.judge(game),
            ("judge", "--settle"): lambda: referee.judge(game, settle=True),
            ("audit",): lambda: referee.audit(game),
            ("explain", *([] if at is None else [str(at)])): lambda: referee.explain(game, at),
            ("board", *([] if at is None else ["--before", str(at)])): lambda: referee.board(game, at),
            ("top", "--number", "3", "AEINRST"): lambda: referee.top(game, "AEINRST", number=3),
        }
        if random.random() < 0.3:
            asks["repair", "--number", "2"] = lambda: referee.repair(game, number=2)
        for (name, *options), ask in asks.items():
            behind = [options.pop()] if name == "top" or name == "explain" and options else []
            ran = self.run(name, "--json", *options, *by, *([] if name == "board" else ["words", "lexicon"]), "game", *behind)
            try:
                told = ask()
                status = told.status
            except BadInput as bad:
                told, status = bad.answer, 3
            self.seen[f"{name}: {status}"] += 1
            self.expect(json.loads(ran.stdout) == told and ran.returncode == status, name, options, game, ran.stdout, told)
        self.expect(self.run("tidy", "game").stdout.decode() == referee.tidy(game), game)
        self.sheets(referee, by, game)

    def sheets(self, referee, by, game):
        """The same sheet with notes, and the same comparison with itself."""
        pair = [*by, "words", "lexicon"]
        ran, notes = self.run("compare", "--json", *pair, "game", "game"), self.run("annotate", "--top", "2", *pair, "game")
        try:
            self.expect(referee.annotate(game, number=2) == notes.stdout.decode(), game, notes.stdout)
            told = referee.compare(game, game)
            self.expect(json.loads(ran.stdout) == told and ran.returncode == told.status, game, ran.stdout, told)
        except BadInput as bad:
            self.expect(
                notes.returncode == ran.returncode == 3 and json.loads(ran.stdout)["verdict"] == bad.answer.verdict, game, ran.stdout, bad.answer
            )

    def endings(self):
        """A program that is killed, one that does not answer, and inputs that are bad."""
        self.put("words", b"AT\nWORD\n")
        self.run("build", "words", "lexicon")
        pair = (self.folder / "words", self.folder / "lexicon")
        with Referee(*pair, program=self.program) as referee:
            self.expect(referee.word("at", "word").verdict == "acceptable" and referee.word("to").status == 1)
            self.expect(referee.check()["words"] == referee.words and referee.check().verdict == "ok")
            for _ in range(3):
                os.kill(referee._process.pid, signal.SIGKILL)
                self.expect(referee.judge(WORD).verdict == "legal", "after it was killed")
            os.kill(referee._process.pid, signal.SIGSTOP)
            referee.timeout = 1
            self.raised(TimedOut, lambda: referee.judge(WORD))
            referee.timeout = 60
            self.expect(referee.judge(WORD).events[0]["best"]["score"] == 16, "after it was stopped")
            self.expect(referee.judge(WORD, best=False).events[0]["best"] is None)
            self.expect(self.raised(BadInput, lambda: referee.judge("x\n>")).answer.verdict == "bad record")
            self.raised(BadRequest, lambda: referee.ask("judge", game=1))
            self.raised(BadRequest, lambda: referee.top(WORD))
            self.raised(BadRequest, lambda: referee.judge("\ud800"))
            self.raised(BadRequest, lambda: referee.judge("x" * (5 << 20)))
            self.expect(self.raised(BadInput, lambda: referee.judge("x" * (2 << 20))).answer.fault["name"] == "TooLong")
            told = referee.audit(WRONG, corrected=True)
            self.expect(told.text == WRONG.replace("18", "16") and told.wrong[0]["right"] == 16, told, told.text)
            self.expect(referee.page("#player1 A <Ann>\n" + WORD).startswith("<!DOCTYPE html>"))
            self.texts(referee)
            latin = b"#character-encoding ISO-8859-1\n#player1 A \xc9mile\n>A: DORWAAE 8E WORD +16 16\n"
            self.expect("Émile" in referee.page(latin) and referee.judge(latin).players[0]["name"] == "Émile", text_of(latin))
            other = "#character-encoding ISO-8859-15\n#player1 A Émile\n>A: DORWAAE 8E WORD +16 16\n"
            self.expect(text_of(other.encode()) == other and referee.judge(other.encode()).players[0]["name"] == "Émile", text_of(other.encode()))
        self.raised(Broken, lambda: referee.judge(WORD))
        self.expect(self.raised(BadInput, lambda: Referee(pair[1], pair[0], program=self.program)).answer.verdict == "bad word list")
        self.expect(self.raised(BadInput, lambda: Referee(pair[0], pair[0], program=self.program)).answer.verdict == "bad lexicon")
        self.raised(Broken, lambda: Referee(pair[0], self.folder / "none", program=self.program))
        self.raised(OSError, lambda: Referee(*pair, program=self.folder / "none"))
        self.raised(Broken, lambda: Referee(*pair, program="/bin/true"))

    def faults(self):
        """Programs that answer as they should not: each fault has an error of its own, and the program is started again only if that is wanted."""
        stub = self.folder / "stub"
        for does, kind in FAULTS.items():
            stub.write_text(STUB % does)
            stub.chmod(0o755)
            for restart in (False, True):
                with Referee("words", "lexicon", program=stub, restart=restart) as referee:
                    ask = partial(referee.ask, "judge", timeout=1 if kind is TimedOut else 60, game=WORD)
                    told = self.raised(kind, ask, does, restart)
                    self.expect(type(told) is kind, does, restart, repr(told))
                    again = self.raised(Broken, ask, does, restart)
                    self.expect(type(again) is (kind if restart else Died), does, restart, repr(again))
        pair = (self.folder / "words", self.folder / "lexicon")
        with Referee(*pair, program=self.program, restart=False) as referee:
            self.expect(referee.judge(WORD).verdict == "legal" and referee.judge(WORD).verdict == "legal", "without a fault")
            os.kill(referee._process.pid, signal.SIGKILL)
            self.raised(Died, lambda: referee.judge(WORD), "killed")
        self.replaced(pair)

    def replaced(self, pair):
        """A list that is replaced or removed under a program that has read it changes no answer."""
        with Referee(*pair, program=self.program) as referee:
            before = referee.judge(WORD)
            for path in pair:
                path.write_bytes(b"AA\n")
            self.expect(referee.judge(WORD) == before, "the list was replaced")
            for path in pair:
                path.unlink()
            self.expect(referee.judge(WORD) == before and referee.word("word").verdict == "acceptable", "the list was removed")

    def texts(self, referee):
        """Texts of sheets: repaired, merged and with notes; and what is raised where there is none."""
        told = referee.repair(WORD.replace("8E", "9E"), repaired=True)
        self.expect(
            told.status == 1 and told.text == WORD.replace("DORWAAE", "AADEORW") and told.repairs[0]["slip"] == "one square off", told, told.text
        )
        self.expect(referee.repair(WORD, repaired=True).text is None and referee.repair(WORD).repairs == [])
        self.expect(len(referee.repair(WORD.replace("8E", "9E"), number=1).repairs) == 1)
        bad = self.raised(BadInput, lambda: referee.repair(WORD.replace(" 8E", ""), number=1, repaired=True))
        self.expect(bad.answer.verdict == "bad record" and bad.answer.line_slips[0]["slip"] == "no place", bad.answer)
        told = referee.compare(WORD, WORD.replace("8E", "9E"), merged=True)
        self.expect(told.status == 1 and told.text == told.merged and told.text.endswith("8E WORD +16 16\n"), told, told.text)
        self.expect(referee.compare(WORD, WORD).text is None and referee.compare(WORD.encode(), WORD).verdict == "agree")
        self.expect(self.raised(BadInput, lambda: referee.compare(WORD, "")).answer.verdict == "no game")
        self.expect(referee.annotate(WORD) == f"{WORD}#note best 8E WORD 16, equal\n")
        noted = referee.annotate(WORD.replace("+16 16", "+18 18"))
        self.expect(noted == ">A: DORWAAE 8E WORD +18 18\n#note The play scores 16, but 18 is written.\n", noted)
        self.expect(self.raised(BadInput, lambda: referee.annotate("")).answer.verdict == "no game")
        self.drafts(referee)
        for number in (0, 101):
            self.raised(BadRequest, lambda: referee.repair(WORD, number=number))
            self.raised(BadRequest, lambda: referee.annotate(WORD, number=number))

    def drafts(self, referee):
        """Drafts: the record that one makes, its first fault, and what its next line is about."""
        for draft in (WORD.replace(" +16 16", ""), WORD.replace("+16 16", "+18")):
            told = referee.fill(draft, filled=True)
            self.expect(told.text == WORD and told.put_in["totals"] == 1 and told.status == len(told.wrong), told, told.text)
        self.expect(referee.fill(WORD).text is None and referee.fill(WORD).lines == [] and referee.fill(WORD.encode()).status == 0)
        bad = self.raised(BadInput, lambda: referee.fill(">A: 8E\n", filled=True)).answer
        self.expect(bad.fault == {"name": "Fields"} and bad.amiss == "no word", bad)
        told = referee.next(WORD.replace(" 16\n", "\n"))
        self.expect(told.turn == 2 and told.bag == 82 and [it["total"] for it in told.players] == [16, 0], told)
        self.with_draft(referee, WORD.replace(" +16 16", ""), WORD.replace("+16 16", "+18"))
        self.raised(BadRequest, lambda: referee.ask("fill", game=WORD))
        self.raised(BadRequest, lambda: referee.ask("next", draft=WORD, filled=True))

    def with_draft(self, referee, bare, wrong):
        """What is told of drafts with `draft`."""
        self.expect(referee.explain(bare, draft=True).status == 0 and referee.explain(wrong, draft=True)["text"] == wrong.removesuffix("\n"), wrong)
        self.expect([it["total"] for it in referee.board(bare, draft=True).players] == [16, 0], bare)
        self.expect(referee.repair(wrong, number=1, draft=True).to_go_by == 1 and referee.repair(bare, draft=True).status == 0, wrong)
        told = referee.compare(bare, WORD, merged=True, draft=True)
        self.expect(told.verdict == "agree" and told.text.endswith(">A: AADEORW 8E WORD +16 16\n"), told, told.text)
        for ask in (lambda: referee.explain(bare), lambda: referee.board(bare), lambda: referee.repair(bare), lambda: referee.compare(bare, bare)):
            self.raised(BadInput, ask, bare)

    def threads(self):
        """1,000 requests from 8 threads."""
        with Referee(self.folder / "words", self.folder / "lexicon", program=self.program) as referee:

            def ask(number):
                told = referee.judge(f"#player1 A N{number}\n{WORD}", best=number % 2 == 0)
                return told.players[0]["name"] == f"N{number}" and (told.events[0]["best"] is not None) == (number % 2 == 0)

            with ThreadPoolExecutor(8) as pool:
                self.expect(all(pool.map(ask, range(1000))), "an answer is that of another request")


def main():
    program, cases = str(Path(sys.argv[1]).resolve()), int(sys.argv[2])
    random.seed(int(sys.argv[3]))
    with tempfile.TemporaryDirectory() as folder:
        client = Client(program, folder)
        client.games(cases)
        client.endings()
        client.threads()
        client.faults()
    client.end(cases, "games")


main()
