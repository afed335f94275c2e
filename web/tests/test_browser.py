"""The page in a browser: what a person does there, with scripts and without, by mouse and by keyboard alone."""
from __future__ import annotations

import re
import tempfile
import unittest
from pathlib import Path

from browsing import Browser
from selenium.webdriver.common.action_chains import ActionChains
from selenium.webdriver.common.by import By
from selenium.webdriver.common.keys import Keys
from selenium.webdriver.support.ui import WebDriverWait
from support import ENTERED, EXAMPLES, GAME, WRONG_PLACE, events, shared_page


class Browsing(unittest.TestCase):
    """A page with a browser."""

    scripts = True

    @classmethod
    def setUpClass(cls) -> None:
        cls.page = shared_page()
        cls.browser = Browser(cls.page.url, cls.scripts)

    @classmethod
    def tearDownClass(cls) -> None:
        cls.browser.close()

    def tearDown(self) -> None:
        self.assertEqual(self.browser.complaints(), [])

    def begin(self) -> None:
        """A new game of Ann and Bob."""
        self.browser.open("/game")
        self.browser.type("#first", "Ann Lee")
        self.browser.type("#second", "Bob Ray")
        self.browser.press("Begin")

    def enter(self, event: dict[str, str], player: str = "") -> None:
        """Enters an event in the form."""
        browser = self.browser
        if closed := browser.all("details.after:not([open]) > summary"):
            closed[0].click()
        if player:
            browser.choose(f"input[name=player][value={player}]")
        browser.choose(f"#kind-{event['kind']}")
        for name, kinds in (("move", ("play",)), ("tiles", ("exchange", "last")), ("points", ("challenge", "time"))):
            if event["kind"] in kinds:
                browser.type(f"#{name}", event[name])
        browser.type("#rack", event["rack"])
        browser.press("Enter")

    def draft(self) -> str:
        """The record on the page."""
        return str(self.browser.find("#draft").get_attribute("value"))

    def kept(self) -> str:
        """The record that the browser keeps."""
        self.browser.button("Keep the record").click()
        return self.browser.downloaded("ann-bob.gcg")

    def whole_game(self, mistaken: bool = False) -> None:
        """Enters the example game, and keeps it; with a mistake at each step, which is mended."""
        self.begin()
        for number, event in enumerate(events()):
            player = event["player"] if number == 0 or event["kind"] == "time" else ""
            if mistaken:
                self.mistake(event, player)
            self.enter(event, player)
            self.assertIn(event["line"], self.draft(), self.browser.text(".told"))
        self.assertEqual(self.draft(), ENTERED)
        self.assertIn("Bob Ray won by 34 The game is complete.", self.browser.text("#last"))
        self.assertEqual(self.kept(), ENTERED)

    def mistake(self, event: dict[str, str], player: str) -> None:
        """Enters something else, which is refused in words, or taken and undone."""
        before = self.draft()
        wrong = {"withdraw": {"kind": "play", "move": "8A ZZ"}, "challenge": {"points": "7"}, "time": {"points": "7"}, "last": {"tiles": "R"}}
        self.enter(event | (wrong.get(event["kind"]) or {"move": self.moved(event["move"])}), player)
        if self.draft() == before:
            self.assertEqual(len(self.browser.all("#refused")), 1)
            self.assertGreater(len(self.browser.text("#refused")), 40)
        else:
            self.browser.leave(lambda: self.browser.find("#last button[value=undo]").click())
            self.assertIn("Taken back: >", self.browser.text(".told"))
            self.assertEqual(self.draft(), before)
            self.assertEqual(self.browser.find("#rack").get_attribute("value"), event["rack"])

    @staticmethod
    def moved(move: str) -> str:
        """A play one row or column further."""
        place, word = move.split()
        row, column = re.sub(r"[A-O]", "", place), re.sub(r"[0-9]", "", place)
        other = str(int(row) % 15 + 1)
        return f"{other}{column} {word}" if place[0].isdigit() else f"{column}{other} {word}"


class WithScripts(Browsing):
    """A browser as it comes."""

    def test_whole_game(self) -> None:
        self.whole_game()

    def test_mistakes(self) -> None:
        self.whole_game(mistaken=True)

    def test_squares(self) -> None:
        """A click on a square fills the place without a new page, and a second one turns it."""
        self.begin()
        before = self.browser.find("html")
        for square, value in (("8E", "8E "), ("8E", "E8 "), ("8E", "8E "), ("9F", "9F ")):
            self.browser.find(f"button[value=square-{square}]").click()
            self.assertEqual(self.browser.find("#move").get_attribute("value"), value)
            self.assertEqual(self.browser.focused(), "move")
        self.browser.find("#move").send_keys("WORD")
        self.browser.find("button[value=square-8H]").click()
        self.assertEqual(self.browser.find("#move").get_attribute("value"), "8H WORD")
        self.assertEqual(before, self.browser.find("html"))

    def test_frame(self) -> None:
        """The page of a game is in a frame that may do nothing, and its links lead through the game."""
        self.browser.open("/view")
        self.browser.find("#game-file").send_keys(str(EXAMPLES / "game.gcg"))
        self.browser.press("Show it")
        frame = self.browser.find("iframe")
        self.assertEqual(frame.get_attribute("sandbox"), "")
        driver = self.browser.driver
        driver.switch_to.frame(frame)
        try:
            self.assertIn("legal complete", self.browser.text("body"))
            self.assertEqual(self.browser.find(".verdict").value_of_css_property("border-left-style"), "solid")
            shown = [it for it in self.browser.all(".pos") if it.is_displayed()]
            self.assertEqual(shown, [])
            driver.find_element(By.LINK_TEXT, "Go through the game ›").click()
            shown = [it for it in self.browser.all(".pos") if it.is_displayed()]
            self.assertEqual(len(shown), 1)
            self.assertIn("Line 4", shown[0].text)
        finally:
            driver.switch_to.default_content()

    def test_keyboard(self) -> None:
        """The whole game by the keyboard alone: names, who begins, each line, and the file to keep."""
        browser, keys = self.browser, lambda *typed: ActionChains(self.browser.driver).send_keys(*typed).perform()
        browser.open("/game")
        browser.leave(lambda: keys("Ann Lee", Keys.TAB, "Bob Ray", Keys.ENTER))
        for number, event in enumerate(events()):
            if event["kind"] == "time":
                browser.find("details.after > summary").send_keys(Keys.ENTER)
                browser.find("#move").send_keys("")
            self.assertEqual(browser.focused(), "move")
            if number == 0 or event["kind"] == "time":
                self.choose_player(event["player"])
            typed = re.sub(r" -?\d+$", "", event["line"]) if event["points"] else re.sub(r" [+-]\d+ -?\d+$", "", event["line"])
            typed = typed.partition(": ")[2].removeprefix(event["rack"]).strip()
            browser.leave(lambda: keys(typed, Keys.TAB, event["rack"], Keys.ENTER))
            self.assertIn(event["line"], self.draft(), browser.text(".told"))
        self.assertEqual(self.draft(), ENTERED)
        for _ in range(20):
            keys(Keys.TAB)
            if browser.driver.switch_to.active_element.text == "Keep the record":
                break
        keys(Keys.ENTER)
        self.assertEqual(browser.downloaded("ann-bob.gcg"), ENTERED)

    def choose_player(self, nick: str) -> None:
        """From the field of the play back to the players, and with the arrows to the one who is meant."""

        def keys(typed: str) -> None:
            ActionChains(self.browser.driver).send_keys(typed).perform()

        def back() -> None:
            ActionChains(self.browser.driver).key_down(Keys.SHIFT).send_keys(Keys.TAB).key_up(Keys.SHIFT).perform()

        for _ in range(6):
            back()
            if self.browser.focused() == "player":
                break
        for _ in range(6):
            keys(Keys.ARROW_RIGHT)
            if self.browser.driver.switch_to.active_element.get_attribute("value") == nick:
                break
        for _ in range(6):
            keys(Keys.TAB)
            if self.browser.focused() == "move":
                break

    def test_keyboard_kinds(self) -> None:
        """A pass and an exchange are chosen with the arrows."""
        browser, keys = self.browser, lambda *typed: ActionChains(self.browser.driver).send_keys(*typed).perform()
        self.begin()
        self.choose_player("Ann")
        ActionChains(browser.driver).key_down(Keys.SHIFT).send_keys(Keys.TAB).key_up(Keys.SHIFT).perform()
        self.assertEqual(browser.focused(), "kind")
        browser.leave(lambda: keys(Keys.ARROW_RIGHT, Keys.ENTER))
        self.assertIn(">Ann: - +0 0\n", self.draft())
        ActionChains(browser.driver).key_down(Keys.SHIFT).send_keys(Keys.TAB).key_up(Keys.SHIFT).perform()
        browser.leave(lambda: keys(Keys.ARROW_RIGHT, Keys.ARROW_RIGHT, Keys.TAB, "AEI", Keys.TAB, "AEINRST", Keys.ENTER))
        self.assertIn(">Bob: AEINRST -AEI +0 0\n", self.draft())


class Sheets(Browsing):
    """Sheets that are checked, repaired and compared, and a challenge."""

    def test_repair(self) -> None:
        """A sheet with one slip is repaired by the button, and kept."""
        self.browser.open("/sheet")
        with tempfile.TemporaryDirectory() as folder:
            Path(folder, "sheet.gcg").write_text(WRONG_PLACE)
            self.browser.find("#game-file").send_keys(f"{folder}/sheet.gcg")
            self.browser.press("Check it")
        self.assertIn("Line 8 does not stand. >Ann: ADLNORS 10G NOD +22 50 The play scores 24, but 22 is written.", self.browser.text("#verdict"))
        self.wait_for_repairs()
        self.assertIn("Line 8: one square off", self.browser.text("#repairs"))
        self.browser.press("Take this change")
        self.assertIn("The game stands, and it is complete.", self.browser.text("#verdict"))
        self.browser.button("Keep the sheet").click()
        self.assertEqual(self.browser.downloaded("ann-bob-repaired.gcg"), GAME)

    def wait_for_repairs(self) -> None:
        """Waits for what takes longer, or asks for it without scripts."""
        if self.browser.all("#later") and not self.scripts:
            self.browser.press("Go on looking")
        WebDriverWait(self.browser.driver, 90, 0.2).until(lambda _: self.browser.all("#repairs"))

    def test_numbers(self) -> None:
        """A wrong number, and the corrected sheet to keep."""
        self.browser.open("/sheet")
        self.browser.type("#game", GAME.replace("+28 28", "+29 28", 1))
        self.browser.press("Check it")
        self.assertIn("1 number is wrong", self.browser.text("#verdict"))
        self.browser.button("Keep the corrected sheet").click()
        self.assertEqual(self.browser.downloaded("ann-bob-corrected.gcg"), GAME)

    def test_two(self) -> None:
        """Two sheets are merged."""
        self.browser.open("/two")
        self.browser.type("#first", WRONG_PLACE)
        self.browser.type("#second", GAME)
        self.browser.press("Compare them")
        self.assertIn("The sheets differ.", self.browser.text())
        self.browser.button("Keep the merged record").click()
        self.assertEqual(self.browser.downloaded("ann-bob-merged.gcg"), GAME.replace("#character-encoding UTF-8\n", ""))
        self.browser.press("Show the merged game")
        self.assertEqual(len(self.browser.all("iframe[sandbox='']")), 1)

    def test_challenge(self) -> None:
        """The answer is large enough to be read from the other side of the table."""
        self.browser.open("/challenge")
        for words, said, colour in (("nod zoo", "Acceptable", "rgb(28, 107, 44)"), ("nod zyx", "Not acceptable", "rgb(163, 32, 28)")):
            self.browser.find("#words").send_keys(words)
            self.browser.press("Rule on it")
            ruling = self.browser.find(".said")
            self.assertEqual(ruling.text, said)
            self.assertGreaterEqual(float(ruling.value_of_css_property("font-size").removesuffix("px")), 100)
            self.assertIn(colour, self.browser.find(".ruling").value_of_css_property("background-color").replace("rgba", "rgb").replace(", 1)", ")"))

    def test_ways(self) -> None:
        """From a game that is entered to its check, to its page, to its best plays, and back."""
        self.browser.open("/game")
        self.browser.find("#game-file").send_keys(str(EXAMPLES / "game.gcg"))
        self.browser.press("Go on")
        self.browser.press("Check the sheet")
        self.assertIn("The game stands, and it is complete.", self.browser.text("#verdict"))
        self.browser.press("Show the game")
        self.browser.find(".best summary").click()
        self.browser.type("#rack", "aeinrs?")
        self.browser.type("#line", "20")
        self.browser.press("Look")
        self.assertIn("6I ASIdE 15", self.browser.text(".plays"))
        self.browser.button("Keep it with the best plays").click()
        self.assertIn("#note best 8E COLT 12, 12 more", self.browser.downloaded("ann-bob-annotated.gcg"))
        self.browser.press("Go on entering")
        self.assertEqual(self.draft(), GAME)


class WithoutScripts(Sheets):
    """The same without scripts."""

    scripts = False

    def test_no_scripts(self) -> None:
        """No script runs here: a click on a square leads to a new page, which has its place."""
        self.begin()
        self.browser.leave(lambda: self.browser.find("button[value=square-8E]").click())
        self.assertEqual(self.browser.find("#move").get_attribute("value"), "8E ")
        self.browser.leave(lambda: self.browser.find("button[value=square-8E]").click())
        self.assertEqual(self.browser.find("#move").get_attribute("value"), "E8 ")

    def test_whole_game(self) -> None:
        self.whole_game()

    def test_mistakes(self) -> None:
        self.whole_game(mistaken=True)


if __name__ == "__main__":
    unittest.main()
