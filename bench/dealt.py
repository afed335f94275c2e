"""Makes the records that run.sh measures: dealt.py FOLDER

`0.gcg` to `999.gcg` are games of 25 events that were dealt for real, with one player's racks and some exchanges. `names` has their paths, `half`
those of 500, and `ten` all ten times. `words` are the words of their plays. `crowded.gcg` is a record of 1,000 events by a set of 200 tiles, nine in
ten of them exchanges, with `crowded.words` and `crowded.rules`, the text of its rules.
"""
import random
import sys
from pathlib import Path

from settle import BOTH, TWO_SETS, thousand

from dealing import Dealer, line
from rules import ENGLISH
from rules_texts import text_of

EVENTS = 25


def some_games(count):
    """Games of so many events with an exchange, and the words that are listed in all of them."""
    games, listed, phonies = [], set(), set()
    while len(games) < count:
        dealer = Dealer(ENGLISH, EVENTS, BOTH, "one", 15)
        events = dealer.game()[0][:EVENTS]
        if len(events) == EVENTS and any(event.kind in ("exchange", "unknown") for event in events):
            games.append("".join(map(line, events)))
            listed |= dealer.listed
            phonies |= dealer.phonies
    return games, {word for word in listed - phonies if 2 <= len(word) <= 15}


def main():
    folder = Path(sys.argv[1])
    random.seed(1)
    games, listed = some_games(1000)
    paths = [folder / f"{number}.gcg" for number in range(len(games))]
    for path, game in zip(paths, games):
        path.write_text(game)
    names = [f"{path}\n" for path in paths]
    (folder / "names").write_text("".join(names))
    (folder / "half").write_text("".join(names[:500]))
    (folder / "ten").write_text("".join(names * 10))
    (folder / "words").write_text("".join(f"{word}\n" for word in sorted(listed)))
    events, listed = thousand("one")
    (folder / "crowded.gcg").write_text("".join(map(line, events)))
    (folder / "crowded.words").write_text("".join(f"{word}\n" for word in sorted(listed) if 2 <= len(word) <= 15))
    (folder / "crowded.rules").write_bytes(text_of(TWO_SETS))


if __name__ == "__main__":
    main()
