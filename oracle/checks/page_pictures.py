"""Takes pictures of pages with headless Chromium, to be looked at: page_pictures PROGRAM FOLDER [docs]

The pages are those of `page_samples.py`, and of a game of 1,000 events. Each is taken 360 and 1,200 pixels wide, in light and in dark, as it is
opened and at the tenth position, to which the links lead: `Go through the game`, and nine times `next`. It says how many pages each has on paper, and
which text has too little contrast with what is behind it. With a third word `docs` only the pictures of README.md and docs/ARCHIVE.md
are made, in few colours, by `pngquant`. It needs the packages chromium, chromium-driver and python3-selenium, and the Python that they are for.
"""
import base64
import re
import shutil
import subprocess
import sys
from pathlib import Path

from page_samples import ROOT, make_pages, samples
from selenium import webdriver
from selenium.webdriver.chrome.options import Options
from selenium.webdriver.chrome.service import Service
from selenium.webdriver.common.by import By

NARROW, WIDE = (360, 800), (1200, 900)
LOW_CONTRAST = """
const parts = c => c.match(/[0-9.]+/g).map(Number), linear = v => v <= .04045 ? v / 12.92 : ((v + .055) / 1.055) ** 2.4;
const light = c => { const [r, g, b] = parts(c).map(v => linear(v / 255)); return .2126 * r + .7152 * g + .0722 * b };
const behind = e => { for (; e; e = e.parentElement) { const c = getComputedStyle(e).backgroundColor; \
if ((parts(c)[3] ?? 1) > .99) return c } return 'rgb(255,255,255)' };
const told = new Set();
for (const e of document.body.querySelectorAll('*')) {
    const s = getComputedStyle(e), own = [...e.childNodes].some(n => n.nodeType == 3 && n.data.trim());
    if (!own || !e.getClientRects().length) continue;
    const [one, two] = [light(s.color), light(behind(e))].sort((a, b) => a - b), ratio = (two + .05) / (one + .05);
    if (ratio < 4.5) told.add(`${e.tagName}.${e.className} ${ratio.toFixed(2)}`);
}
return [...told];
"""


def browser():
    options = Options()
    for word in ("--headless=new", "--no-sandbox", "--hide-scrollbars", "--disable-gpu"):
        options.add_argument(word)
    return webdriver.Chrome(service=Service("/usr/bin/chromedriver"), options=options)


class Camera:
    """A browser, and a folder for the pictures."""

    def __init__(self, folder):
        self.driver, self.folder = browser(), folder

    def open(self, page, size, dark=False, place=""):
        scheme = [{"name": "prefers-color-scheme", "value": "dark" if dark else "light"}]
        self.driver.execute_cdp_cmd(
            "Emulation.setDeviceMetricsOverride", {"width": size[0], "height": size[1], "deviceScaleFactor": 1, "mobile": size[0] < 500}
        )
        self.driver.execute_cdp_cmd("Emulation.setEmulatedMedia", {"features": scheme})
        self.driver.get("about:blank")
        self.driver.get((self.folder / f"{page}.html").as_uri() + place)

    def take(self, to):
        self.driver.save_screenshot(str(to))

    def follow(self, words):
        """Follows the link in view that begins or ends with some words, where there is one."""
        links = [it for it in self.driver.find_elements(By.TAG_NAME, "a") if it.is_displayed() and words in it.text]
        if links:
            links[0].click()
        return bool(links)

    def look(self, page, size, dark):
        """A page as it is opened, and at its tenth position."""
        name = f"{page[:40]}-{size[0]}{'-dark' if dark else ''}"
        self.open(page, size, dark)
        wide = self.driver.execute_script("return document.documentElement.scrollWidth")
        told = self.driver.execute_script(LOW_CONTRAST)
        self.take(self.folder / f"{name}.png")
        if self.follow("Go through the game"):
            for _ in range(9):
                self.follow("next")
            told += self.driver.execute_script(LOW_CONTRAST)
            self.take(self.folder / f"{name}-tenth.png")
        print(name, f"{wide} pixels" if wide > size[0] else "", *sorted(set(told)))

    def print(self, page):
        """How many pages of paper it has."""
        self.open(page, WIDE)
        sheet = base64.b64decode(self.driver.execute_cdp_cmd("Page.printToPDF", {"printBackground": True, "preferCSSPageSize": True})["data"])
        (self.folder / f"{page[:40]}.pdf").write_bytes(sheet)
        print(page[:40], max(int(it) for it in re.findall(rb"/Count ([0-9]+)", sheet)), "pages of paper")


def long_game():
    """A game of 1,000 events: a play that is taken back and a pass, again and again."""
    play, back = b">Bob: CELNOOT 8D CELON +20 20\n", b">Bob: CELNOOT -- -20 0\n"
    return b"#player1 Ann Ann Lee\n#player2 Bob Bob Ray\n" + (play + back + b">Ann: ADEGORZ - +0 0\n") * 333 + play


def document(program, folder, camera):
    """The pictures of README.md and docs/ARCHIVE.md."""
    games = samples()
    rounds = {
        "round1/ann-bob.gcg": games["game"],
        "round1/ann-bob-by-hand.gcg": games["fault"],
        "round2/ann.gcg": games["one"],
        "round2/notes.gcg": games["no-record"],
    }
    for name, game in rounds.items():
        (folder / name).parent.mkdir(exist_ok=True)
        (folder / name).write_bytes(game)
    for name in ("words.txt", "words.gad"):
        shutil.copy(ROOT / "examples" / name, folder)
    subprocess.run([program, "archive", "--repairs", "--pages", ".", "words.txt", "words.gad", *rounds], cwd=folder, capture_output=True, check=False)
    pictures = [
        ("round1/ann-bob", (1120, 730), "page-game", "#l13"),
        ("round1/ann-bob-by-hand", (360, 730), "page-fault", ""),
        ("index", (760, 330), "page-index", ""),
    ]
    for page, size, to, place in pictures:
        camera.open(page, size, place=place)
        camera.take(folder / f"{to}.png")
        subprocess.run(["pngquant", "--force", "--output", ROOT / "docs" / f"{to}.png", "96", folder / f"{to}.png"], check=True)


def main():
    program, folder = str(Path(sys.argv[1]).resolve()), Path(sys.argv[2]).resolve()
    folder.mkdir(parents=True, exist_ok=True)
    camera = Camera(folder)
    if sys.argv[3:] == ["docs"]:
        document(program, folder, camera)
        return camera.driver.quit()
    for page in make_pages(program, folder, {"long": long_game()}):
        for size in (NARROW, WIDE):
            for dark in (False, True):
                camera.look(page, size, dark)
        camera.print(page)
    return camera.driver.quit()


main()
