"""Checks pages for people who see or point less well: page_checks PROGRAM

The pages are those of `page_samples.py`: the example game, that game with a fault, one of players with hostile names, one of a single event, and
their index. Of each it is asked that

- the colours of its style have a contrast of 4.5 to 1 wherever text of one stands on the other, and of 3 to 1 where one marks new tiles on the
  other, in light and in dark (the formula is that of the Web Content Accessibility Guidelines, WCAG 2.1);
- it has a language, a title, one heading of the first order and none that leaves out an order, and a `main`;
- every link has a name and leads somewhere, and every table has heads;
- `tidy`, where it is installed, finds nothing.
"""
import re
import shutil
import subprocess
import sys
import tempfile
from pathlib import Path

import web
from page_samples import make_pages

ROOT = Path(__file__).resolve().parents[2]
TEXT, MARK = 4.5, 3.0
PAIRS = [
    *[("ink", on, TEXT) for on in ("page", "card", "cell")],
    *[("faint", on, TEXT) for on in ("page", "card", "cell", "field")],
    *[("link", on, TEXT) for on in ("page", "card")],
    *[(word, on, TEXT) for word in ("good", "bad", "open") for on in ("page", "card", "cell")],
    *[("prem", on, TEXT) for on in ("cell", "dl", "tl", "dw", "tw")],
    *[(word, "tile", TEXT) for word in ("tile-ink", "blank")],
    *[("new", on, MARK) for on in ("tile", "cell")],
]


def luminance(colour):
    """The relative luminance of a colour of three or six digits."""
    digits = colour.lstrip("#")
    digits = "".join(it * 2 for it in digits) if len(digits) == 3 else digits
    parts = [int(digits[k : k + 2], 16) / 255 for k in (0, 2, 4)]
    linear = [it / 12.92 if it <= 0.04045 else ((it + 0.055) / 1.055) ** 2.4 for it in parts]
    return 0.2126 * linear[0] + 0.7152 * linear[1] + 0.0722 * linear[2]


def contrast(one, other):
    dark, light = sorted((luminance(one), luminance(other)))
    return (light + 0.05) / (dark + 0.05)


def schemes(style):
    """The colours of a style by name, in light and in dark."""
    light, dark = (dict(re.findall(r"--([a-z-]+):(#[0-9a-f]{3,6})\b", block)) for block in re.findall(r":root\{([^}]*)\}", style)[:2])
    return {"light": light, "dark": light | dark}


def colours(page):
    """Pairs of colours that are too near to each other."""
    style = page.first("style").text()
    return [
        f"{scheme}: {one} on {other} {contrast(named[one], named[other]):.2f}, not {least}"
        for scheme, named in schemes(style).items()
        for one, other, least in PAIRS
        if contrast(named[one], named[other]) < least
    ]


def headings(node):
    return [it for child in node.children() for it in ([child] if re.fullmatch("h[1-6]", child.tag) else headings(child))]


def structure(page):
    """What is wrong with the order of headings, the names of links and the heads of tables."""
    orders = [int(it.tag[1]) for it in headings(page)]
    faults = [] if orders and orders[0] == 1 and orders.count(1) == 1 else [f"headings {orders}"]
    faults += [f"headings {orders}" for one, two in zip(orders, orders[1:]) if two > one + 1]
    faults += (
        []
        if page.first("html").attributes.get("lang") and page.first("title").text().strip() and len(page.all("main")) == 1
        else ["language, title or main"]
    )
    faults += [f"a link without a name: {it.attributes}" for it in page.all("a") if not it.text().strip() or not it.attributes.get("href")]
    faults += ["a heading without a name" for it in headings(page) if not it.text().strip()]
    return faults + ["a table without heads" for it in page.all("table") if not it.all("th")]


def tidied(file):
    """What `tidy` says of a page."""
    if not shutil.which("tidy"):
        return []
    ran = subprocess.run(["tidy", "-quiet", "-errors", "-utf8", "--mute-id", "yes", file], capture_output=True, check=False)
    return ran.stderr.decode().splitlines()


def main():
    program, faults, pages = str(Path(sys.argv[1]).resolve()), [], 0
    with tempfile.TemporaryDirectory() as folder:
        for name in make_pages(program, Path(folder)):
            file = Path(folder, f"{name}.html")
            page = web.read(file.read_bytes())
            faults += [f"{name}: {fault}" for fault in [*colours(page), *structure(page), *tidied(file)]]
            pages += 1
    print(*faults, f"{pages} pages, {len(faults)} faults", sep="\n")
    sys.exit(bool(faults))


if __name__ == "__main__":
    main()
