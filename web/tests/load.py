"""Fifty people at once: load.py [SECONDS [PEOPLE [WORDS]]]

Each of them enters the example game line by line, over and over, and now and then checks a sheet with a slip, asks for a challenge, or looks at the
page of the game, with pauses of up to two seconds between. Every answer has to be right. At the end come the figures: how many answers there were,
and how long they took.
"""
from __future__ import annotations

import random
import sys
import threading
import time
from collections import defaultdict
from pathlib import Path

from support import ENTERED, GAME, WRONG_PLACE, Client, Page, draft_in, events, words_in

EVENTS = list(events())


class Person(threading.Thread):
    """Somebody who uses the page until the time is over."""

    def __init__(self, page: Page, until: float, seed: int) -> None:
        super().__init__()
        self.client, self.until, self.random = Client(page), until, random.Random(seed)
        self.times: dict[str, list[float]] = defaultdict(list)
        self.faults: list[str] = []

    def ask(self, what: str, path: str, **fields: str) -> str:
        """An answer, with the time that it took, and a pause after it."""
        start = time.monotonic()
        status, text = self.client.post(path, fields)
        self.times[what].append(time.monotonic() - start)
        if status != 200:
            self.faults.append(f"{what}: {status}")
        time.sleep(self.random.uniform(0, 2))
        return text

    def run(self) -> None:
        try:
            time.sleep(self.random.uniform(0, 2))
            while time.monotonic() < self.until:
                self.game()
        except Exception as error:  # listed at the end
            self.faults.append(repr(error))

    def game(self) -> None:
        """The example game, line by line."""
        draft = draft_in(self.ask("start", "/game", do="start", first="Ann Lee", second="Bob Ray"))
        for event in EVENTS:
            if time.monotonic() > self.until:
                return
            fields = {key: event[key] for key in ("player", "rack", "kind", "move", "tiles", "points")}
            draft = draft_in(self.ask("line", "/game", do="add", draft=draft, **fields))
            self.expect(event["line"] in draft, event["line"])
            if self.random.random() < 0.1:
                self.aside()
        self.expect(draft == ENTERED, "the game")

    def aside(self) -> None:
        """Something else."""
        which = self.random.randrange(3)
        if which == 0:
            self.expect("one square off" in words_in(self.ask("sheet", "/sheet", game=WRONG_PLACE)), "the repair")
        elif which == 1:
            self.expect("✗ Not acceptable" in words_in(self.ask("challenge", "/challenge", words="nod zyxyz")), "the challenge")
        else:
            self.expect("sandbox" in self.ask("page", "/view", game=GAME), "the page")

    def expect(self, is_right: bool, what: str) -> None:
        if not is_right:
            self.faults.append(what)


def faults_under_load(seconds: float, many: int, page: Page) -> list[str]:
    """What went wrong while as many people use a page; the figures are printed."""
    until = time.monotonic() + seconds
    people = [Person(page, until, seed) for seed in range(many)]
    for person in people:
        person.start()
    for person in people:
        person.join()
    times = {what: sorted(it for person in people for it in person.times[what]) for what in ("start", "line", "sheet", "challenge", "page")}
    print(f"{many} people at once for {seconds:.0f} s: {sum(map(len, times.values()))} answers")
    for what, found in times.items():
        if found:
            middle, late = found[len(found) // 2], found[min(len(found) - 1, len(found) * 99 // 100)]
            print(
                f"  {what}: {len(found)}, half of them within {1000 * middle:.0f} ms, "
                f"99 of 100 within {1000 * late:.0f} ms, all within {1000 * found[-1]:.0f} ms"
            )
    return [fault for person in people for fault in person.faults]


def main() -> None:
    seconds = float(sys.argv[1]) if len(sys.argv) > 1 else 60
    many = int(sys.argv[2]) if len(sys.argv) > 2 else 50
    page = Page(Path(sys.argv[3]).resolve() if len(sys.argv) > 3 else None, workers=4)
    faults = faults_under_load(seconds, many, page)
    print(f"{len(faults)} answers were wrong" + "".join(f"\n  {fault}" for fault in faults[:10]))
    sys.exit(bool(faults))


if __name__ == "__main__":
    main()
