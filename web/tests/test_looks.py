"""How each page looks: contrast, labels, and that nothing is wider than the window, at 320, 360 and 1,200 pixels, in light and in dark.

With TABLE_PICTURES=FOLDER a picture of each is written there, to be looked at. What a screen reader is told, the accessibility tree, is looked at
too.
"""
from __future__ import annotations

import time
import unittest
from pathlib import Path
from typing import Any, Callable, Iterator

from browsing import SIZES, Browser
from support import GAME, PICTURES, WRONG_PLACE, shared_page

LOOKS = (Path(__file__).parent / "looks.js").read_text()
PHONY = GAME[: GAME.index(">Bob: CELNOOT --")]
HALF = "\n".join(GAME.split("\n")[:29]) + "\n"


NAMED = {"button", "checkbox", "combobox", "heading", "image", "link", "radio", "searchbox", "spinbutton", "textbox"}


def value_of(node: dict[str, Any], key: str) -> str:
    """A value of a node of the accessibility tree, as a text."""
    return str(node.get(key, {}).get("value", "")).strip()


def faults_of_tree(nodes: list[dict[str, Any]]) -> Iterator[str]:
    """What a screen reader would miss: a name, the one main part, or a step of the headings."""
    told = [node for node in nodes if not node.get("ignored")]
    for node in told:
        if value_of(node, "role") in NAMED and not value_of(node, "name"):
            yield f"{value_of(node, 'role')} without a name"
    mains = sum(value_of(node, "role") == "main" for node in told)
    if mains != 1:
        yield f"{mains} main parts"
    steps = [
        int(it["value"]["value"])
        for node in told
        if value_of(node, "role") == "heading"
        for it in node.get("properties", ())
        if it["name"] == "level"
    ]
    if steps.count(1) != 1 or any(after > before + 1 for before, after in zip(steps, steps[1:])):
        yield f"headings of the levels {steps}"
    if not any(value_of(node, "role") == "RootWebArea" and value_of(node, "name") for node in told):
        yield "no title"


class Looks(unittest.TestCase):
    """Each page that there is."""

    @classmethod
    def setUpClass(cls) -> None:
        cls.browser = Browser(shared_page().url)

    @classmethod
    def tearDownClass(cls) -> None:
        cls.browser.close()

    def put(self, selector: str, text: str) -> None:
        """A text in a field, at once."""
        self.browser.driver.execute_script("document.querySelector(arguments[0]).value = arguments[1]", selector, text)

    def given(self, path: str, button: str, **fields: str) -> None:
        """A form that is filled and sent."""
        self.browser.open(path)
        for name, text in fields.items():
            self.put(f"#{name}", text)
        self.browser.press(button)

    def refused(self) -> None:
        self.given("/game", "Go on", game=HALF)
        self.put("#move", "A8 XX")
        self.browser.press("Enter")

    def each_word(self) -> None:
        self.browser.open("/challenge")
        self.put("#words", "nod zyx")
        self.browser.find("[name=each]").click()
        self.browser.press("Rule on it")

    def asked(self) -> None:
        self.given("/game", "Begin", first="Ann Lee", second="Bob Ray")
        self.browser.find("input[name=player][value=Ann]").click()
        self.put("#move", "8g qi")
        self.put("#rack", "IQRST??")
        self.browser.press("Enter")

    def opened(self, line: int = 20) -> None:
        self.given("/game", "Go on", game=HALF)
        self.browser.leave(lambda: self.browser.find(f"#line-{line} button").click())

    def no_longer(self) -> None:
        self.opened(17)
        self.put("#mend-move", "G5 AN")
        self.browser.press("Correct it")

    def beside(self) -> None:
        self.given("/game", "Go on", game=PHONY)
        self.browser.find("#challenge summary").click()
        self.browser.press("Rule on it")

    def results(self) -> None:
        self.browser.open("/")
        self.browser.press("The results")

    def best_plays(self) -> None:
        self.given("/view", "Show it", game=GAME)
        self.browser.find(".best summary").click()
        self.put("#rack", "AEINRS?")
        self.put("#line", "20")
        self.browser.press("Look")

    def stale(self) -> None:
        self.browser.open("/sheet")
        self.put("[name=token]", "x")
        self.put("#game", GAME)
        self.browser.press("Check it")

    def pages(self) -> dict[str, Callable[[], None]]:
        """How one comes to each page."""
        return {
            "home": lambda: self.browser.open("/"),
            "start": lambda: self.browser.open("/game"),
            "new": lambda: self.given("/game", "Begin", first="Ann Lee", second="Bob Ray"),
            "game": lambda: self.given("/game", "Go on", game=HALF),
            "over": lambda: self.given("/game", "Go on", game=GAME),
            "refused": self.refused,
            "asked": self.asked,
            "opened": self.opened,
            "no-longer": self.no_longer,
            "beside": self.beside,
            "tonight": lambda: self.browser.open("/"),
            "results": self.results,
            "help": lambda: self.browser.open("/help"),
            "blank": lambda: self.browser.open("/blank"),
            "faulty": lambda: self.given("/game", "Go on", game=WRONG_PLACE),
            "sheet": lambda: self.browser.open("/sheet"),
            "checked": lambda: self.given("/sheet", "Check it", game=WRONG_PLACE),
            "numbers": lambda: self.given("/sheet", "Check it", game=GAME.replace("+28 28", "+29 28", 1)),
            "right": lambda: self.given("/sheet", "Check it", game=GAME),
            "one-number": lambda: self.given("/sheet", "Check it", game=GAME[: GAME.index(">Bob: AFHLOTW")].replace("+22 50", "+22 72")),
            "bad": lambda: self.given("/sheet", "Check it", game=">Ann Lee: 8E GAZE +28 28\n"),
            "two": lambda: self.browser.open("/two"),
            "compared": lambda: self.given("/two", "Compare them", first=WRONG_PLACE, second=GAME),
            "challenge": lambda: self.browser.open("/challenge"),
            "acceptable": lambda: self.given("/challenge", "Rule on it", words="nod zoo"),
            "not-acceptable": self.each_word,
            "unread": lambda: self.given("/challenge", "Rule on it", words="8E W0RD"),
            "view": lambda: self.browser.open("/view"),
            "viewed": self.best_plays,
            "stale": self.stale,
            "none": lambda: self.browser.open("/none"),
        }

    def test_looks(self) -> None:
        if PICTURES:
            Path(PICTURES).mkdir(parents=True, exist_ok=True)
        for name, come in self.pages().items():
            self.browser.size(1200, 900, False)
            come()
            for width, height in SIZES:
                for is_dark in (False, True) if width != 320 else (False,):
                    self.browser.size(width, height, is_dark)
                    with self.subTest(page=name, width=width, is_dark=is_dark):
                        self.assertEqual(self.browser.driver.execute_script(LOOKS), [])
                        if PICTURES:
                            time.sleep(0.5 if self.browser.all("iframe") else 0)
                            self.browser.picture(Path(PICTURES, f"{name}-{width}-{'dark' if is_dark else 'light'}.png"))

    def test_tree(self) -> None:
        """A screen reader is told what each field, button and link is, and where the page begins."""
        self.browser.size(1200, 900, False)
        for name, come in self.pages().items():
            with self.subTest(page=name):
                come()
                nodes = self.browser.driver.execute_cdp_cmd("Accessibility.getFullAXTree", {})["nodes"]
                self.assertEqual(list(faults_of_tree(nodes)), [])


if __name__ == "__main__":
    unittest.main()
