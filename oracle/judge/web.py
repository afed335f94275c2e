"""Reads the pages that the program writes, strictly: every tag closed in its order, but for the rows and cells of a board, whose ends HTML
leaves out; no tag and no attribute but those that a page needs, no name twice and no link to a name that is not there; nothing that runs and
nothing that is loaded."""
import re
from html.parser import HTMLParser

VOID = {"meta"}
TAGS = {
    "html": {"lang"}, "head": set(), "meta": {"charset", "name", "content"}, "title": set(), "style": set(), "body": {"class"},
    "header": set(), "main": set(), "section": {"class", "id"}, "footer": set(), "h1": set(), "h2": set(), "p": {"class"}, "b": {"class"},
    "i": set(), "q": set(), "bdi": set(), "small": set(), "code": set(), "ul": {"class"}, "li": {"class"},
    "table": {"class"}, "thead": set(), "tbody": set(),
    "tr": {"class", "id"}, "th": {"class"}, "td": {"class", "colspan"}, "span": set(), "a": {"href"},
}  # fmt: skip
CELLS = {"td", "th"}


class Node:
    """An element: its tag, its attributes, and what is in it."""

    def __init__(self, tag, attributes):
        self.tag, self.attributes, self.inside = tag, attributes, []

    def text(self):
        return "".join(it if isinstance(it, str) else it.text() for it in self.inside)

    def children(self):
        """The elements directly in it."""
        return [it for it in self.inside if isinstance(it, Node)]

    def kinds(self):
        """Its classes."""
        return self.attributes.get("class", "").split()

    def all(self, tag, kind=None):
        """The elements of a tag in it, at any depth, of a class where one is named."""
        found = []
        for it in self.children():
            if it.tag == tag and (kind is None or kind in it.kinds()):
                found.append(it)
            found += it.all(tag, kind)
        return found

    def first(self, tag, kind=None):
        return self.all(tag, kind)[0]


class Reader(HTMLParser):
    """Makes a tree of a page, and refuses what does not belong there."""

    def __init__(self):
        super().__init__(convert_charrefs=True)
        self.root = Node("", {})
        self.open = [self.root]
        self.names = []

    def handle_decl(self, decl):
        assert decl == "DOCTYPE html" and not self.root.inside, decl

    def in_board(self):
        """Whether the innermost table is a board."""
        tables = [it for it in self.open if it.tag == "table"]
        return bool(tables) and tables[-1].kinds() == ["board"]

    def end_open(self, tags):
        """Ends the innermost elements of a board that are of these tags."""
        while self.in_board() and self.open[-1].tag in tags:
            self.open.pop()

    def handle_starttag(self, tag, attrs):
        names = [name for name, _ in attrs]
        assert tag in TAGS and set(names) <= TAGS[tag] and len(names) == len(set(names)), (tag, attrs)
        assert all(value is not None for _, value in attrs), attrs
        if tag in CELLS:
            self.end_open(CELLS)
        if tag == "tr":
            self.end_open(CELLS | {"tr"})
        node = Node(tag, dict(attrs))
        if "id" in node.attributes:
            assert node.attributes["id"] not in self.names, attrs
            self.names.append(node.attributes["id"])
        self.open[-1].inside.append(node)
        if tag not in VOID:
            self.open.append(node)

    def handle_endtag(self, tag):
        assert not (self.in_board() and tag in CELLS | {"tr"}), tag
        if tag == "table":
            self.end_open(CELLS | {"tr"})
        assert self.open.pop().tag == tag, tag

    def handle_data(self, data):
        self.open[-1].inside.append(data)

    def handle_comment(self, data):
        raise AssertionError(data)

    def handle_pi(self, data):
        raise AssertionError(data)

    def unknown_decl(self, data):
        raise AssertionError(data)


def read(page):
    """The tree of a page, whose bytes are UTF-8."""
    text = page.decode()
    assert text.startswith("<!DOCTYPE html>\n<html") and text.endswith("</html>\n")
    reader = Reader()
    reader.feed(text)
    reader.close()
    assert reader.open == [reader.root]
    style = reader.root.first("style").text()
    assert not re.search(r"url|@import|expression|<", style), style
    links = [it.attributes["href"] for it in reader.root.all("a")]
    assert all(link[1:] in reader.names for link in links if link.startswith("#")), links
    return reader.root
