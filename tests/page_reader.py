"""Reads a page of ./thrummisk sheets back, by what its elements show, for tests/sheets.

It knows nothing of how the page was made: an instance is what stands in front of a set, a set is the codes behind it.
The pages read here have no names, so that both are numbers.
"""

import re
from html import unescape

EMPTY = {"meta", "br"}
# a closing or an opening tag, or text; values of attributes have no > of their own, since the page makes them safe
TOKEN = re.compile(r"<(/?)([a-z0-9]+)([^<>]*?)(/?)>|<!DOCTYPE html>|([^<]+)")
ATTRIBUTE = re.compile(r'([a-z-]+)="([^"]*)"')
STYLE = re.compile(r"<style>.*?</style>", re.S)


class Element:
    """An element. all_of are the page's elements in their order, of which those inside it come next behind it."""

    def __init__(self, tag, attributes, all_of):
        self.tag, self.attributes, self.inside = tag, dict(attributes), []
        self.classes = (self.attributes.get("class") or "").split()
        self.all_of, self.start, self.end = all_of, len(all_of) + 1, None
        all_of.append(self)

    def text(self):
        return "".join(part if isinstance(part, str) else part.text() for part in self.inside)

    def all(self, tag, name=None):
        return [found for found in self.all_of[self.start:self.end]
                if found.tag == tag and (name is None or name in found.classes)]

    def one(self, tag, name=None):
        return self.all(tag, name)[0]


def read(text):
    """The page as elements; one that is closed where another is open is a fault of the page."""
    all_of = []
    open_ = [Element("page", [], all_of)]
    for closes, tag, attributes, whole, words in TOKEN.findall(STYLE.sub("", text)):
        if words:
            open_[-1].inside.append(unescape(words))
        elif closes:
            element = open_.pop()
            element.end = len(all_of)
            if element.tag != tag:
                raise ValueError(f"the page closes a {tag} that isn't open")
        elif tag:
            element = Element(tag, [(name, unescape(value)) for name, value in ATTRIBUTE.findall(attributes)], all_of)
            open_[-1].inside.append(element)
            if whole or tag in EMPTY:
                element.end = element.start
            else:
                open_.append(element)
    if len(open_) != 1:
        raise ValueError("the page leaves something open")
    page = open_[0]
    page.sections = {found.attributes.get("id"): found for found in page.all("section")}
    return page


def section(page, name):
    return page.sections.get(name)


def value(element):
    """The set that an element shows."""
    return sum(1 << int(reason.text()) for reason in element.all("b"))


def instance(label):
    node, index = label.split(".")
    return 8 * int(node) + int(index)


def sheet(page, name):
    """The nodes of a sheet as pairs of production and own set, and its sets by their instances."""
    nodes, sets = [], {}
    if section(page, name) is None:
        raise ValueError(f"there is no {name}")
    for number, row in enumerate(section(page, name).one("tbody").all("tr")):
        if int(row.one("td", "no").text()) != number:
            raise ValueError(f"row {number} of {name} has another number")
        nodes.append((int(row.one("span", "production").text()[1:]), value(row.one("td", "own"))))
        for shown in row.one("td", "sets").all("span", "set"):
            sets[8 * number + int(shown.one("i").text())] = value(shown)
    return nodes, sets


def number(text):
    return int(text.replace(",", ""))


def events(page):
    """What the day's part tells, in order: ("refused", number, line), ("update", done, circles), ("dump", count)."""
    part = section(page, "day")
    for found in part.inside if part else []:
        if not isinstance(found, Element):
            continue
        if found.tag == "details":
            yield "update", *update(found)
        elif "refused" in found.classes:
            yield "refused", int(re.search(r"\(refusal (\d+)\)", found.text())[1]), int(re.search(r"line (\d+)", found.text())[1])
        elif "dumped" in found.classes:
            yield "dump", number(re.search(r": ([\d,]+) sets?$", found.text())[1])


def update(details):
    """Done's numbers, and of each circle its least instance, its size and its rounds."""
    told = re.search(r"([\d,]+) circles?, ([\d,]+) evaluations?, ([\d,]+) changed", details.one("span", "told").text())
    circles = [circle for table in details.all("table", "rounds") for row in table.one("tbody").all("tr")
               for circle in circles_of(row)]
    return tuple(map(number, told.groups())), circles


def circles_of(row):
    """The circles of a row: one, or several that are lone."""
    first, _, last = row.one("td", "order").text().partition("–")
    members = [instance(shown.one("i").text()) for shown in row.one("td", "members").all("span", "set")]
    if last or not row.all("ol"):
        if len(members) != int(last or first) - int(first) + 1:
            raise ValueError(f"circles {first} to {last} are {len(members)}")
        return [(member, 1, 1) for member in members]
    return [(min(members), len(members), len(row.all("li")))]


def climbs_end(page, name):
    """The sets with which the circles of a part's last update end, as the rounds tell them."""
    ends = {}
    for row in section(page, name).all("details", "update")[-1].all("tr"):
        members = row.all("td", "members")
        if members:
            ends.update({instance(shown.one("i").text()): 0 for shown in members[0].all("span", "set")})
            for shown in row.inside[-1].all("span", "set"):
                ends[instance(shown.one("i").text())] = value(shown)
    return ends
