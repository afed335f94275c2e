"""Compares `referee page` with the second judge: compare_pages PROGRAM CASES SEED

Each case is a game that nobody dealt, or one that was dealt for real with mistakes of a director's day (`mistakes.py`), some by players
whose names are full of signs that mean something in HTML, and some with notes, titles and names of lexicons of that kind. The page is read
strictly (`web.py`), and everything on it is compared with what the second judge says of the record: names, totals, result, the record's own
words, verdict, reason, sum, boards and links, rows, notes and foot. The same game gives the same bytes, and the page of a game of up to 30
events has less than 150 kB.
"""
import random

import audits
import web
from advice import advice
from answers import lines_of, status_of, words_of
from archive_lines import states_latin
from comparing import Differences, compare_cases
from dealing import likely, line
from deals import event_of, settled_verdicts
from game_pages import differences, expected
from mistakes import some_inputs, with_unread_lines
from records import Fault, read
from unread import unread_advice

choose = random.choice
NAMES = [b"A", b"<b>", b"</td>", b"&amp;", b"\"'", b"x\xff\xfe", b"<script>alert(1)</script>", b"&#39;", "Zoë".encode(), b"-->", b"]]>"]


def worded(game):
    """A record with notes and other words of its own, before its events and between them."""

    def said():
        return choose([b"", b" ", b"\t"]) + choose(NAMES) + choose([b"", b" and more "])

    lines = [choose([b"#title ", b"#event ", b"#lexicon ", b"#description ", b"#title", b"#Title "]) + said() for _ in range(random.randrange(4))]
    for text in game.split(b"\n"):
        lines.append(text)
        if likely(0.2):
            lines.append(choose([b"#note ", b"#note\t", b"#note ", b"#notes ", b"#note", b"note "]) + said() + choose([b"", b"\r"]))
    return b"\n".join(lines)


def named(game, first, second):
    """A record by players with other names: nicknames, and sometimes full names."""
    game = game.replace(b">A:", b">%s:" % first).replace(b">B:", b">%s:" % second)
    if likely(0.5):
        game = b"#player1 %s %s %s\n#player2 %s %s\n" % (first, choose(NAMES), first, second, choose(NAMES)) + game
    if likely(0.3):
        game = choose([b"#character-encoding ISO-8859-1\n", b"#character-encoding  iso-8859-1 \r\n", b"#character-encoding UTF-8\n"]) + game
    return game


def in_utf8(game, player):
    """The names of a player, where the record may state that they are in ISO-8859-1."""
    return player and tuple(name.decode("latin-1").encode() if states_latin(game) else name for name in player)


class Pages(Differences):
    """Pages of games with mistakes."""

    def case(self):
        rules, events, words, _, text = some_inputs(self.put)
        game = "".join(map(line, events)).encode()
        names = random.sample([it for it in NAMES if b":" not in it and b" " not in it], 2)
        game = worded(game) if likely(0.5) else game
        game = with_unread_lines(game)
        game = self.put("game", named(game, *names) if likely(0.7) else game)
        self.compare(words, game, text, rules)

    def page(self, by):
        (self.folder / "out").unlink(missing_ok=True)
        ran = self.run("page", *by, "words", "lexicon", "game", "out")
        return ran, (self.folder / "out").read_bytes() if (self.folder / "out").exists() else None

    def results(self, by_the_sheet, game, events, lines, listed, rules, page):
        """What may be said of the result: who is ahead by the right numbers if one is wrong and no likely repair is shown, or else by those of the
        sheet."""
        nicks = [player[0].decode("latin-1") if player else "" for player in read(game)[0]]
        wrong, verdicts = audits.ways(events, listed, rules, lines, nicks)
        if not wrong or b'<p class="why likely">' in page:
            return [by_the_sheet]
        leads = [verdict.partition("\n")[2] for verdict in verdicts]
        shown = [it if states_latin(game) else it.encode("latin-1").decode(errors="replace") for it in leads]
        return [f"{lead}." if lead else by_the_sheet for lead in shown]

    def compare(self, words, game, text, rules):
        by = ["--rules", "rules"] if text is not None else []
        ran, page = self.page(by)
        try:
            players, said = read(game)
        except Fault as fault:
            self.seen["bad record"] += 1
            good = ran.stdout == fault.text() and ran.returncode == 3 and page is None and ran.stderr == advice("page", ran.stdout, "game", game)
            return self.expect(good, ran, fault.text(), game)
        if not said:
            self.seen["no game"] += 1
            good = ran.stdout == b"no game\n" and ran.returncode == 3 and page is None and ran.stderr == advice("page", ran.stdout, "game", game)
            return self.expect(good, ran, game)
        listed, events, lines = words_of(words), [event_of(it) for it in said], lines_of(game)
        verdicts = [audits.on_line(verdict, lines) for verdict in settled_verdicts(events, listed, rules)]
        verdict = ran.stdout.decode("latin-1").removesuffix("\n")
        self.seen[verdict.split(": ")[-1].split(" ")[0]] += 1
        self.expect(
            verdict in verdicts and ran.returncode == status_of(ran.stdout) and ran.stderr == unread_advice("game", game), ran, verdicts[:3], game
        )
        if page is None or verdict not in verdicts:
            return self.expect(False, "no page", ran)
        self.expect(len(events) > 30 or len(page) < 150_000, len(page), "bytes")
        players = [in_utf8(game, player) for player in players]
        wanted = expected(verdict, players, events, lines, listed, rules, words, text, game, states_latin(game), page.decode("latin-1"))
        results = self.results(wanted["result"], game, events, lines, listed, rules, page)
        said = web.read(page).first("header").first("p", "result").text()
        self.seen["who is ahead by the right numbers"] += said in results and said != wanted["result"]
        wanted["result"] = said if said in results else results[0]
        told = differences(page, wanted | {"back": None})
        self.expect(not told, *told[:5], game.decode("latin-1"))
        return self.expect(self.page(by)[1] == page, "another page")


compare_cases(Pages, lambda pages, _: pages.case())
