"""Compares `referee archive` with the second judge: compare_archive PROGRAM CASES SEED

Each run is of games by one list: games that nobody dealt, games that were dealt for real in each style, such games with a rack spoiled, and
damaged records, with names that no file has and a folder among them. Every run is made in both forms, which have to say the same. One
run in four is by a rules text.
"""
import random

from archive_lines import read_json_line, read_tab_line, status_of, tab_line, unread, ways
from comparing import Differences, compared
from dealing import Dealer, likely, line, spoiled
from fuzz import TEXT_DAMAGES, damaged
from lexicons import GAD2, build, convert
from making import Maker
from mistakes import with_unread_lines
from rules import ENGLISH
from rules_texts import text_of
from ruling import random_rules

choose = random.choice
STYLES = ["whole", "one", "mixed", "part", "none"]
BOTH = ("known", "unknown")
NAMES = ["a game", "tab\there", "back\\slash", "é", "ﬁne", "a'b", 'quote"', "-"]


def text_from(events):
    return "".join(map(line, events)).encode()


def dealt_games(rules):
    """A game that was dealt for real, and the same with a rack spoiled: the bytes, the listed words, what was taken back, and whether it was
    dealt."""
    dealer = Dealer(rules, choose([4, 25, 40]), choose([(), BOTH, BOTH]), choose(STYLES), choose([4, 15, 40]))
    events, _, listed = dealer.game()
    yield text_from(events), set(listed) - dealer.phonies, dealer.phonies, True
    changed = spoiled(events, rules)
    if changed:
        yield text_from(changed), set(), set(), False


def other_games(rules):
    """A game that nobody dealt, mostly, or a damaged record, or a file without an event."""
    if likely(0.1):
        yield choose(
            [
                b"#character-encoding ISO-8859-1\n>\xc9va: - +0 0\n",
                b"#character-encoding\tiso-8859-1 x\r\n>\xe9\\t: - +0 0\n",
                b">a\\b: - +0 0\n",
                b" #character-encoding ISO-8859-1\n>\xc9va: - +0 0\n",
                b"",
                b"<html>\n",
                b"#player1 A Ann Lee\n",
                b" >A: - +0 0\n",
                b"\xff\xfe>\0A\0:\0",
            ]
        ), set(), set(), False
        return
    maker = Maker(choose([2, 6, 40, 120]), rules)
    game = text_from(maker.game())
    listed = maker.listed
    if likely(0.4):
        game = with_unread_lines(damaged(game, TEXT_DAMAGES, 2))
    yield game, listed, maker.phonies, False


def some_games(rules, count):
    """Games, and a list for them, of which nothing that was taken back is in the list."""
    games, listed, phonies = [], set(), set()
    while len(games) < count:
        for game, words, back, dealt in dealt_games(rules) if likely(0.6) else other_games(rules):
            games.append((game, dealt))
            listed |= words
            phonies |= back
    return games, {word for word in listed - phonies if 2 <= len(word) <= 15}


class Archives(Differences):
    """Archives of games, with a name of no file and the name of a folder among them."""

    def __init__(self, program, folder):
        super().__init__(program, folder)
        (self.folder / "folder").mkdir()

    def write(self, games, listed, rules):
        """Writes the inputs of a run, and gives the lines of which one has to be said of each name."""
        (self.folder / "words").write_text("\n".join(sorted(listed)))
        (self.folder / "lexicon").write_bytes(choose([build(listed), convert(build(listed), GAD2)]))
        (self.folder / "rules").write_bytes(text_of(rules))
        wanted = []
        for number, (game, dealt) in enumerate(games):
            name = f"game{number}" if likely(0.8) else f"{choose(NAMES)} {number}"
            (self.folder / name).write_bytes(game)
            wanted.append(ways(name, game, listed, rules, dealt))
        wanted.insert(random.randint(0, len(wanted)), [unread("nowhere", "cannot open")])
        wanted.insert(random.randint(0, len(wanted)), [unread("folder", "is a folder")])
        (self.folder / "names").write_text("".join(f"{told[0]['name']}\n" for told in wanted if "\n" not in told[0]["name"]))
        return wanted

    def compare(self, games, listed, rules):
        """One run in both forms."""
        wanted = self.write(games, listed, rules)
        by = ["--rules", "rules"] if rules != ENGLISH or likely(0.2) else []
        names = [told[0]["name"] for told in wanted]
        given = ["--names", "names", "words", "lexicon"] if likely(0.5) else ["words", "lexicon", "--", *names]
        tabs = self.lines([*by, *given], wanted, lambda text: read_tab_line(text.removesuffix("\n")))
        objects = self.lines(["--json", *by, *given], wanted, read_json_line)
        for text, told in zip(tabs, objects):
            self.expect(text[0] == tab_line(told[1]), "two forms", text[0], told[0])

    def lines(self, words, wanted, reading):
        """The lines of a run with what they say, each of which has to be one of those that are wanted of its name."""
        ran = self.run("archive", *words)
        texts = ran.stdout.decode().splitlines(keepends=True) if ran.stdout.endswith(b"\n") else []
        self.expect(len(texts) == len(wanted) and not ran.stderr, *words, ran.stdout[-500:], ran.stderr)
        told = [(text, reading(text)) for text in ran.stdout.decode().split("\n")[:-1] for text in [text + "\n"]]
        for (text, said), allowed in zip(told, wanted):
            self.seen[said["verdict"] + (f" {said['fault']}" if said["verdict"] == "unread" else "")] += 1
            self.expect(said in allowed, text, *allowed[:2])
        self.expect(ran.returncode == status_of([said for _, said in told]), *words, "status", ran.returncode)
        return told


def compare(archives, cases):
    """Compares runs of up to forty games by one list."""
    made = 0
    while made < cases:
        rules = ENGLISH if likely(0.75) else random_rules()
        games, listed = some_games(rules, min(40, cases - made))
        archives.compare(games, listed, rules)
        made += len(games)


archives, games_made = compared(Archives, compare)
archives.end(games_made, "games")
