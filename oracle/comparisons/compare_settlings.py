"""Settles really dealt games, such games with a rack spoiled and small records by `tool_settle`, and checks each deal and each
cut: compare_settlings PROBE CASES SEED. Each real game has to be settled with a deal. Of small records all deals are tried.

The probe is run on many records at once. How many came to which answer is told for each style of record, and the processor time. The table before the
last line is that of docs/BENCH.md.
"""
import random
import subprocess
import sys
import tempfile
from collections import Counter
from dataclasses import replace
from pathlib import Path

from dealing import Dealer, in_order, likely, line, spoiled
from deals import bound, course, events_of
from games import go_through
from rules import ENGLISH
from rules_texts import text_of
from settlings import is_right, read_told
from try_deals import some_deal

STYLES = {
    "whole": "all",
    "one": "one player's, and for the other the numbers of exchanged tiles",
    "mixed": "here and there",
    "part": "in part",
    "none": "none",
}
SHARES = [4, 15, 40]
BOTH = ("known", "unknown")


class Probe:
    """The program that settles records, and a folder for its inputs."""

    def __init__(self, program, folder):
        self.program, self.folder = program, Path(folder)

    def settle(self, records, listed, rules, budget="-"):
        """What is told of each record, and the processor time that it took, in milliseconds."""
        words = self.folder / "words"
        words.write_text("\n".join(sorted(listed)))
        if rules == ENGLISH:
            told_rules = "-"
        else:
            told_rules = self.folder / "rules"
            told_rules.write_bytes(text_of(rules))
        names = []
        for number, text in enumerate(records):
            names.append(self.folder / f"record{number}")
            names[-1].write_text(text)
        command = [self.program, words, told_rules, budget, *names]
        lines = subprocess.run(command, capture_output=True, check=True).stdout.decode().splitlines()
        for number, name in enumerate(names):
            at = lines.index(str(name))
            end = lines.index(str(names[number + 1])) if number + 1 < len(names) else len(lines)
            said = lines[at + 1 : end]
            time = int(said.pop().removeprefix("time ")) / 1e6 if said[-1].startswith("time") else 0
            yield read_told(said), time


def text_from(events):
    return "".join(map(line, events))


def real_games(probe, cases, style, share, rules=ENGLISH, turns=(40,)):
    """Really dealt games of one style: each has to be dealt. It gives the answers, and the mean and the longest time."""
    games = []
    while len(games) < cases:
        dealer = Dealer(rules, random.choice(turns), BOTH, style, share)
        events, _, listed = dealer.game()
        if events:
            games.append((events, listed))
    answers, times, spoilt = Counter(), [], Counter()
    for events, listed in games:
        changed = spoiled(events, rules)
        records = [events] + ([changed] if changed else [])
        texts = [text_from(record) for record in records]
        for number, (told, time) in enumerate(probe.settle(texts, listed, rules)):
            read = events_of(texts[number])
            if number and go_through(read, listed, rules=rules)[0].startswith("illegal"):
                continue
            places = course(read, listed, rules)
            assert is_right(told, places, rules.tiles), ("not shown", told, texts[number])
            if number == 0:
                assert told[0] == "dealt", ("a real game", told, texts[number])
                times.append(time)
            exceeded = bound(places, rules.tiles) if number else None
            assert not exceeded or told[0] != "dealt", ("a bound is exceeded", told, texts[number])
            (spoilt if number else answers)[told[0] + (", by a bound" if exceeded else "")] += 1
    mean, most = sum(times) / len(times), max(times)
    print(
        f"racks {style}, {share} exchanges in 100 turns: {dict(answers)}, {mean:.3f} ms, at most {most:.1f} ms;" f" spoiled {dict(spoilt)}",
        flush=True,
    )
    return answers, mean, most


def first_without(places, tiles):
    """How many of the first places have no deal, of all fronts the shortest. None where there is a deal."""
    if some_deal(places, tiles):
        return None
    return next(n for n in range(1, len(places) + 1) if not some_deal(places[:n], tiles))


def made_up(tiles):
    """A record of passes and exchanges whose lines show tiles that nobody drew."""
    lines = []
    for turn in range(random.randint(2, 5)):
        shown = random.sample(sorted(tiles.elements()), random.choice([0, 3, 5, 7, 7]))
        thrown = random.randint(1, max(1, min(tiles.total() - 14, 4)))
        known = "-" + in_order(shown[:thrown])
        what = random.choice(["-", "-", f"-{thrown}", f"-{thrown}", known if shown else "-"])
        lines.append(f">{'AB'[turn % 2]}: {in_order(shown)}{' ' if shown else ''}{what} +0 0\n")
    return "".join(lines)


def small_records(probe, cases):
    """Small records that were dealt for real, with a rack spoiled, and made up: all deals are tried. Cuts for more than the
    first steps without a deal are counted; none may be for fewer, and where the steps before the last one are told to have a deal, they
    have to be those first steps."""
    seen = Counter()
    while seen.total() < cases:
        tiles = Counter(random.choices("AEIRT?", [4, 4, 2, 2, 2, 1], k=random.choice([14, 15, 16])))
        rules = replace(ENGLISH, tiles=tiles, exchange_min=1)
        exchanges = random.choice([("known",), ("unknown",), BOTH])
        events, _, listed = Dealer(rules, random.choice([2, 3, 4, 5]), exchanges, random.choice(list(STYLES)), 60).game()
        record = random.choice([events, spoiled(events, rules), None, None, None])
        text = text_from(record) if record else made_up(tiles)
        read = events_of(text)
        if go_through(read, listed, rules=rules)[0].startswith("illegal"):
            continue
        places = course(read, listed, rules)
        exceeded = bound(places, tiles)
        if exceeded and likely(0.9):
            continue
        told, _ = next(iter(probe.settle([text], listed, rules)))
        assert is_right(told, places, tiles), ("not shown", told, text, tiles)
        first = first_without(places, tiles)
        if first is None:
            assert told[0] == "dealt", ("a deal is there", told, text, tiles)
        assert exceeded or told[0] != "unknown", ("not settled", text, tiles)
        if told[0] == "cut":
            _, dealt, rows = told[1]
            assert len(rows) >= first, ("a cut before the first line", told, text, tiles)
            assert not dealt or len(rows) == first, ("no deal for the places before", told, text, tiles)
            seen["of which for more steps"] += len(rows) > first
            seen["of which the steps before are left open"] += not dealt
        seen[f"{told[0]}, {'some deal' if first is None else 'no deal'}{', by a bound' if exceeded else ''}"] += 1
    print(f"small records, all deals tried: {', '.join(f'{answer} {times}' for answer, times in sorted(seen.items()))}", flush=True)


def print_table(figures):
    """The mean times of really dealt games in milliseconds, by style and share of exchanges, and the longest of each style."""
    first, *others = SHARES
    print(f"| racks in the record | {first} exchanges in 100 turns | {' | '.join(map(str, others))} | the longest |")
    print("|---" * (len(SHARES) + 2) + "|")
    for style, name in STYLES.items():
        means = " | ".join(f"{figures[style, share][0]:.2f} ms" for share in SHARES)
        print(f"| {name} | {means} | {max(figures[style, share][1] for share in SHARES):.1f} ms |")


def main():
    program, cases, seed = sys.argv[1], int(sys.argv[2]), int(sys.argv[3])
    random.seed(seed)
    with tempfile.TemporaryDirectory() as folder:
        probe, answers, figures = Probe(Path(program).resolve(), folder), Counter(), {}
        small_records(probe, cases)
        for style in STYLES:
            for share in SHARES:
                told, *figures[style, share] = real_games(probe, cases, style, share)
                answers += told
        few = replace(ENGLISH, tiles=Counter("AAEEIIOORRSSTTNNLLDDGGUUMM??"), exchange_min=1)
        for style in STYLES:
            answers += real_games(probe, cases, style, 40, few, (4, 12, 40))[0]
    print_table(figures)
    print(f"{answers.total()} real games: {dict(answers)}")


if __name__ == "__main__":
    main()
