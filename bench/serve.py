"""Measures requests to judge games, sent to `serve` of one program or of several in turn: serve.py PROGRAM [PROGRAM ..]

One game that is sent again and again; games that grow, as the tables of a tournament send them: each game after its first event, then each after its
second, and so on; and games of which each is sent once. Each kind comes with fewer requests and with more, so that the table shows how time and
memory grow. The time is that of the processor, less that of a run without a request; the memory is the peak. The programs have to answer the same.
"""
import json
import random
import subprocess
import sys
import tempfile
from hashlib import sha256
from pathlib import Path

from running import apart, run

from dealing import Dealer, line
from rules import ENGLISH

HERE = Path(__file__).parent
TURNS = 40


def request(game, best=True):
    """A request to judge a game."""
    return json.dumps({"do": "judge", "game": game, "best": best}) + "\n"


def some_games(count):
    """Games with every rack, and their words."""
    games, listed, phonies = [], set(), set()
    for _ in range(count):
        dealer = Dealer(ENGLISH, TURNS, (), "whole", 0)
        games.append([line(event) for event in dealer.game()[0]])
        listed |= dealer.listed
        phonies |= dealer.phonies
    return games, {word for word in listed - phonies if 2 <= len(word) <= 15}


def growing(games):
    """Each game after its first event, then each after its second, up to their ends."""
    longest = max(map(len, games))
    return [request("".join(game[:number])) for number in range(1, longest + 1) for game in games if number <= len(game)]


def make(folder, program):
    """The list with its lexicon, and the files of requests."""
    random.seed(1)
    games, listed = some_games(1000)
    language = subprocess.run(["awk", "-f", HERE / "dictionary.awk"], check=True, capture_output=True, text=True).stdout.split()
    own = (HERE / "../examples/words.txt").read_text().split()
    words = sorted({*own, *listed, *(word for at, word in enumerate(language, 1) if at % 10)})
    Path(folder, "words").write_text("".join(f"{word}\n" for word in words))
    subprocess.run([program, "build", "words", "lexicon"], cwd=folder, check=True)
    example = (HERE / "../examples/game.gcg").read_text()
    ten = growing(games[:10])
    files = {
        "none": [],
        "the example game, 1,000 times": [request(example)] * 1000,
        "the example game, 10,000 times": [request(example)] * 10_000,
        "the same without best plays": [request(example, False)] * 10_000,
        f"10 games that grow, {len(ten)} requests": ten,
        f"30 games that grow, {len(growing(games[:30]))} requests": growing(games[:30]),
        f"100 games that grow, {len(growing(games[:100]))} requests": growing(games[:100]),
        "100 different games": [request("".join(game)) for game in games[:100]],
        "1,000 different games": [request("".join(game)) for game in games],
    }
    for number, (what, lines) in enumerate(files.items()):
        Path(folder, f"requests-{number}").write_text("".join(lines))
    Path(folder, "what").write_text("\n".join(files))


def served(folder, program, number):
    """What a process took that answered a file of requests, and the digest of what it wrote."""
    with open(Path(folder, f"requests-{number}"), "rb") as requests:
        ran = run(folder, [program, "serve", "words", "lexicon"], stdin=requests)
    if ran.status:
        sys.exit(f"{program} ended with {ran.status}: {ran.said[-200:]!r}")
    return ran, sha256(ran.said).hexdigest()


def main():
    programs = [str(Path(it).resolve()) for it in sys.argv[1:]]
    with tempfile.TemporaryDirectory() as folder:
        apart(make, folder, programs[-1])
        names = Path(folder, "what").read_text().split("\n")
        start = [served(folder, program, 0)[0].processor for program in programs]
        for number, what in enumerate(names[1:], 1):
            told = [served(folder, program, number) for program in programs]
            asked = sum(1 for _ in open(Path(folder, f"requests-{number}"), "rb"))
            took = [ran.processor - least for (ran, _), least in zip(told, start)]
            columns = "  ".join(f"{it:8.2f} s {it / asked * 1000:7.3f} ms {ran.memory:6.1f} MB" for it, (ran, _) in zip(took, told))
            same = "" if len({digest for _, digest in told}) == 1 else "  ANSWERED IN TWO WAYS"
            print(f"{what:42} {columns}{same}", flush=True)


if __name__ == "__main__":
    main()
