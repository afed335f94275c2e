"""What a browser keeps: Back and Forward, a browser that is closed and opened again, an evening of eight boards, lines that are corrected in their
place."""
from __future__ import annotations

import io
import shutil
import tempfile
import unittest
import zipfile
from pathlib import Path

from browsing import Browser
from selenium.webdriver.common.by import By
from selenium.webdriver.common.keys import Keys
from selenium.webdriver.support.ui import WebDriverWait
from support import GAME, WRONG_PLACE, Page, shared_page, slow_program
from test_browser import Browsing

HALF = "\n".join(GAME.split("\n")[:29]) + "\n"


class Keeping(Browsing):
    """A browser with scripts, and what people do in it."""

    def play(self, move: str, player: str = "") -> None:
        """Enters a play."""
        if player:
            self.browser.choose(f"input[name=player][value={player}]")
        self.browser.type("#move", move)
        self.browser.leave(lambda: self.browser.find("#move").send_keys(Keys.ENTER))

    def back(self) -> None:
        """Back, and the page before is there."""
        self.browser.leave(self.browser.driver.back)

    def opened(self, text: str) -> None:
        """Goes on with a game."""
        self.browser.open("/game")
        self.browser.type("#game", text)
        self.browser.press("Go on")


class Going(Keeping):
    """Back, Forward and reload, after every kind of page."""

    def test_back(self) -> None:
        """Back leads through the lines of a game, asks nothing, and says that it went on; Forward and reload work."""
        driver = self.browser.driver
        self.begin()
        self.play("8E GAZE", "Ann")
        self.play("9G ONCE")
        three = self.draft()
        self.assertIn("+24 24", three)
        self.back()
        self.assertNotIn("ONCE", self.draft())
        self.assertIn("This is how the game was before", self.browser.text("#newer"))
        driver.refresh()
        self.assertNotIn("ONCE", self.draft())
        self.browser.press("Go to its last line")
        self.assertEqual(self.draft(), three)
        self.assertEqual([it.is_displayed() for it in self.browser.all("#newer")], [False])
        self.back()
        self.browser.leave(driver.forward)
        self.assertEqual(self.draft(), three)

    def test_back_after_each(self) -> None:
        """From each page that a form gave one comes back to it."""
        forms = [
            ("/sheet", "#game", "Check it", "The sheet"),
            ("/view", "#game", "Show it", "Best plays"),
            ("/challenge", "#words", "Rule on it", "cceptable"),
        ]
        for path, field, button, said in forms:
            self.browser.open(path)
            self.browser.type(field, "nod" if path == "/challenge" else GAME)
            self.browser.press(button)
            self.assertIn(said, self.browser.text())
            self.browser.leave(lambda: self.browser.find(".brand").click())
            self.back()
            self.assertIn(said, self.browser.text(), path)
        self.browser.open("/two")
        self.browser.type("#first", GAME)
        self.browser.type("#second", WRONG_PLACE)
        self.browser.press("Compare them")
        self.browser.press("Check the first sheet")
        self.back()
        self.assertIn("The sheets differ", self.browser.text())

    def test_challenge_beside(self) -> None:
        """The challenge opens beside the game, and the ruling too; nothing is left."""
        self.begin()
        self.play("8D CELON", "Bob")
        before = self.draft()
        self.browser.driver.find_element(By.LINK_TEXT, "Challenge").click()
        self.assertTrue(self.browser.find("#words").is_displayed())
        self.assertEqual(self.browser.find("#words").get_attribute("value"), "CELON")
        self.browser.press("Rule on it")
        self.assertIn("Not acceptable CELON", self.browser.text("#challenge"))
        self.assertEqual(self.draft(), before)
        self.browser.press("Challenged off: take 8D CELON back")
        self.assertIn(">Bob: -- -20 0\n", self.draft())

    def test_corrected_in_place(self) -> None:
        """A click on a line opens it, and Enter takes the correction; so does Enter on a line."""
        self.opened(HALF)
        self.browser.leave(lambda: self.browser.find("#line-8 .who").click())
        self.assertEqual(self.browser.driver.switch_to.active_element.get_attribute("id"), "mend-move")
        self.assertEqual(self.browser.find("#mend-move").get_attribute("value"), "10F NOD")
        self.browser.find("#mend-rack").clear()
        self.browser.leave(lambda: self.browser.find("#mend-move").send_keys(Keys.ENTER))
        self.assertEqual(self.draft(), HALF.replace("ADLNORS 10F", "10F"))
        self.browser.leave(lambda: self.browser.find("#line-8 button").send_keys(Keys.ENTER))
        self.browser.type("#mend-move", "10G NOD")
        self.browser.leave(lambda: self.browser.find("#mend-move").send_keys(Keys.ENTER))
        self.assertIn("Line 9 no longer stands.", self.browser.text("#refused"))
        self.browser.press("Correct line 9")
        self.assertEqual(self.browser.find("#mend-move").get_attribute("value"), "10J FLOAT")
        self.browser.press("Leave it as it is")
        self.assertEqual(self.browser.all("#mend"), [])

    def box(self, selector: str) -> list[float]:
        """Where an element is on the screen: its left, upper, right and lower edge."""
        where = "const it = document.querySelector(arguments[0]).getBoundingClientRect(); return [it.left, it.top, it.right, it.bottom]"
        found: list[float] = self.browser.driver.execute_script(where, selector)
        return found

    def test_on_one_screen(self) -> None:
        """At 360 by 740 pixels the board, the field and its button are on one screen, with squares as large as fit."""
        self.browser.size(360, 740, False)
        try:
            for come in (self.begin, lambda: self.opened(HALF)):
                come()
                self.browser.driver.execute_script("window.scrollTo(0, 0)")
                board, field, button = self.box(".board"), self.box("#move"), self.box(".entry button.main")
                self.assertGreater(board[2] - board[0], 335)
                self.assertLess(board[3], field[1])
                self.assertLess(max(field[3], button[3]), 740)
                self.assertLess(abs(field[1] - button[1]), 30)
                self.browser.find("button[value=square-8C], button[value=square-1B]").click()
                self.assertEqual(self.browser.focused(), "move")
            self.browser.size(360, 400, False)
            WebDriverWait(self.browser.driver, 20, 0.1).until(lambda _: self.box("#move")[3] < 400)
            self.assertGreater(self.box("#move")[1], 0)
            self.assertLess(self.box(".entry button.main")[3], 400)
        finally:
            self.browser.size(1200, 900, False)


class BackWithoutScripts(Keeping):
    """Back without scripts."""

    scripts = False

    def test_back(self) -> None:
        self.begin()
        self.play("8E GAZE", "Ann")
        self.play("9G ONCE")
        self.back()
        self.assertNotIn("ONCE", self.draft())
        self.play("9G ONCE")
        self.assertIn("+24 24", self.draft())
        self.browser.leave(lambda: self.browser.find("#line-4 button, .lines .line button").click())
        self.assertEqual(len(self.browser.all("#mend")), 1)


class Evening(unittest.TestCase):
    """Several games in one browser, which is closed and opened again."""

    def setUp(self) -> None:
        self.profile = Path(tempfile.mkdtemp(prefix="profile-"))
        self.addCleanup(shutil.rmtree, self.profile, ignore_errors=True)
        self.browser = Browser(shared_page().url, profile=self.profile)
        self.addCleanup(lambda: self.browser.close())

    def begin(self, first: str, second: str) -> None:
        self.browser.open("/game")
        self.browser.type("#first", first)
        self.browser.type("#second", second)
        self.browser.press("Begin")

    def play(self, move: str, player: str = "") -> None:
        if player:
            self.browser.choose(f"input[name=player][value={player}]")
        self.browser.type("#move", move)
        self.browser.press("Enter")

    def games(self) -> list[str]:
        """What the first page says of each game."""
        return [" ".join(it.text.split()) for it in self.browser.all(".games li")]

    def test_closed(self) -> None:
        """A browser that is closed in mid-game has the game when it is opened again; Back before that loses nothing."""
        self.begin("Ann Lee", "Bob Ray")
        self.play("8E GAZE", "Ann")
        self.play("9G ONCE")
        draft = self.browser.find("#draft").get_attribute("value")
        self.browser.leave(self.browser.driver.back)
        self.browser.close()
        self.browser = Browser(shared_page().url, profile=self.profile)
        self.browser.open("/")
        self.assertEqual(len(self.games()), 1)
        self.assertRegex(self.games()[0], r"^Ann Lee and Bob Ray 28 : 24 Bob: 9G ONCE \+24 .*\d.* Go on Keep the record Remove$")
        self.browser.button("Keep the record").click()
        self.assertEqual(self.browser.downloaded("ann-bob.gcg"), draft)
        self.browser.press("Go on")
        self.assertEqual(self.browser.find("#draft").get_attribute("value"), draft)
        self.play("10F NOD")
        self.browser.open("/")
        self.assertEqual(len(self.games()), 1)
        self.assertIn("50 : 24 Ann: 10F NOD +22", self.games()[0])

    def test_eight_boards(self) -> None:
        """Eight games, line by line in turn; then all of them as one archive, and their results."""
        pairs = [(f"Ann{number}", f"Bob{number}") for number in range(8)]
        for first, second in pairs:
            self.begin(first, second)
            self.play("8E GAZE", first)
        self.browser.open("/")
        self.assertEqual(len(self.games()), 8)
        self.assertTrue(all("28 : 0" in it for it in self.games()))
        for name in ("Ann0", "Ann6"):
            self.browser.open("/")
            at = next(at for at, it in enumerate(self.games()) if it.startswith(name))
            self.browser.leave(lambda: self.browser.all(".games button.main")[at].click())
            self.play("9G ONCE")
        self.browser.open("/")
        self.assertEqual(len([it for it in self.games() if "28 : 24" in it]), 2)
        self.browser.button("Keep them all as one archive").click()
        with zipfile.ZipFile(io.BytesIO(self.browser.downloaded_bytes("games.zip"))) as archive:
            self.assertEqual(sorted(archive.namelist()), sorted([f"ann{number}-bob{number}.gcg" for number in range(8)] + ["results.csv"]))
            self.assertIn(">Ann0: 8E GAZE +28 28\n", archive.read("ann0-bob0.gcg").decode())
            self.assertIn('"Ann5","28","Bob5","0","Ann5 is ahead by 28"', archive.read("results.csv").decode())
        self.browser.press("The results")
        self.assertIn("Ann5 28 Bob5 0 Ann5 is ahead by 28", self.browser.text())
        self.browser.open("/")
        self.browser.all(".games .remove")[0].click()
        self.browser.driver.switch_to.alert.accept()
        self.assertEqual(len(self.games()), 7)

    def test_no_markup(self) -> None:
        """What is kept is never markup, whoever wrote it there."""
        self.begin("<img/src=x>", "<b>Bob</b>")
        self.browser.driver.execute_script(
            'localStorage.setItem("game x", JSON.stringify({ names: ["<img src=x onerror=alert(1)>"], points: ["<b>1</b>"], '
            """last: "<script>alert(1)</script>", text: "</textarea><img src=x>", at: 0 }));
            localStorage.setItem("game y", "no object"); localStorage.setItem("game z", "null");"""
        )
        self.browser.open("/")
        self.assertEqual(len(self.games()), 2)
        self.assertEqual(self.browser.all(".games img, .games script, .games .names *, .games b b"), [])
        self.assertIn("<img src=x onerror=alert(1)>", self.games()[1])
        self.assertEqual(self.browser.complaints(), [])

    def test_other_line_keeps_the_longer_game(self) -> None:
        """Who goes far back and enters another line there has both games."""
        self.begin("Ann", "Bob")
        self.play("8E GAZE", "Ann")
        self.play("9G ONCE")
        self.play("10F NOD")
        for _ in range(3):
            self.browser.leave(self.browser.driver.back)
        self.play("8E WORD", "Ann")
        self.browser.open("/")
        said = self.games()
        self.assertEqual(len(said), 2)
        self.assertIn("8E WORD", said[0])
        self.assertIn("10F NOD", said[1])


class Server(unittest.TestCase):
    """A server that is down, or started again."""

    def test_down(self) -> None:
        """Back works while there is no server, and the game goes on when it is there again."""
        page = Page(workers=1)
        self.addCleanup(page.close)
        browser = Browser(page.url)
        self.addCleanup(browser.close)
        browser.open("/game")
        browser.type("#first", "Ann")
        browser.type("#second", "Bob")
        browser.press("Begin")
        browser.choose("input[name=player][value=Ann]")
        for move in ("8E GAZE", "9G ONCE"):
            browser.type("#move", move)
            browser.press("Enter")
        page.close()
        browser.leave(browser.driver.back)
        self.assertIn(">Ann: 8E GAZE +28 28", browser.find("#draft").get_attribute("value"))
        self.assertNotIn("ONCE", browser.find("#draft").get_attribute("value"))
        browser.leave(browser.driver.forward)
        self.assertIn("ONCE", browser.find("#draft").get_attribute("value"))

    def test_later(self) -> None:
        """What takes longer comes when it is there; the verdict is shown at once."""
        page = Page(workers=1, TABLE_SECONDS="40", REFEREE=str(slow_program("repair", 6)))
        self.addCleanup(page.close)
        browser = Browser(page.url)
        self.addCleanup(browser.close)
        browser.open("/sheet")
        browser.type("#game", WRONG_PLACE)
        browser.press("Check it")
        self.assertIn("Line 8 does not stand.", browser.text("#verdict"))
        self.assertEqual(len(browser.all("#later")), 1)
        WebDriverWait(browser.driver, 60, 0.2).until(lambda _: browser.all("#repairs"))
        self.assertIn("one square off", browser.text("#repairs"))
        self.assertEqual(browser.complaints(), [])


del Browsing, Keeping

if __name__ == "__main__":
    unittest.main()
