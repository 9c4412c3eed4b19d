"""The rooms: each has a page in docs/rooms, with a table of its crates. From these pages and from crates.txt comes the table of rooms in
docs/ARCHITECTURE.md, but for what is said of each there, and their picture."""

import dataclasses
import functools
import graphlib
import os
import re

from definitions import TOP, read

PAGE = os.path.join(TOP, "docs/ARCHITECTURE.md")
PAGES = os.path.join(TOP, "docs/rooms")
MOST_LINES = 40  # of the page of a room
BEGIN, END = "<!-- made by .ci/believed -->\n", "<!-- end -->"


def generated(page):
    """What stands between the marks of a page."""
    return read(page).partition(BEGIN)[2].partition(END)[0]


def write(page, text):
    """Puts a text between the marks of a page."""
    front, begin, rest = read(page).partition(BEGIN)
    _, end, after = rest.partition(END)
    if not end:
        raise SystemExit(f"{page} has no marks {BEGIN.strip()} and {END}")
    with open(page, "w", encoding="utf-8") as file:
        file.write(front + begin + text + end + after)


@functools.cache
def uses_of_crates():
    """Each crate of crates.txt, in its order, with those that it lists."""
    lines = re.findall(r"^(\w+)[^:#\n]*:(.*)$", read(os.path.join(TOP, "crates.txt")), re.M)
    return {crate: used.split() for crate, used in lines}


@dataclasses.dataclass
class Room:
    title: str
    what: str
    page: str
    crates: list  # by the table of its page, lowest first
    beside: list  # the tests and measurements that its page names

    def row(self):
        """Its row in the table of rooms."""
        cells = [" ".join(f"`{crate}`" for crate in crates) for crates in (self.crates, self.beside)]
        return f"| [{self.title}](rooms/{self.page}) | {self.what} | {cells[0]} | {cells[1]} |".replace("|  |", "| |")


ROW = re.compile(r"^\| \[(.*?)\]\(rooms/(\w+\.md)\) \| (.*?) \|.*$", re.M)


@functools.cache
def rooms():
    """The rooms in the order of the table, by the names of their pages."""
    found = {}
    for title, page, what in ROW.findall(read(PAGE)):
        text = read(os.path.join(PAGES, page))
        crates, beside = re.findall(r"^\| `(\w+)` \|", text, re.M), re.findall(r"`(\w+_(?:tests|rates))`", text)
        found[page[:-len(".md")]] = Room(title, what, page, crates, beside)
    return found


def with_rows(text):
    """The page with the rows of the table as the rooms' pages have them."""
    return ROW.sub(lambda row: rooms()[row[2][:-len(".md")]].row(), text)


def arrows():
    """From which room to which crates lead, with the pairs of crates, tests and measurements aside."""
    room_of = {crate: name for name, room in rooms().items() for crate in room.crates}
    found = {}
    for crate, used in uses_of_crates().items():
        for lower in used:
            ends = room_of.get(crate), room_of.get(lower)
            if None not in ends and ends[0] != ends[1]:
                found.setdefault(ends, []).append((crate, lower))
    return found


def picture():
    """The rooms and their arrows, without those that follow from others. Of two that are opposite the one of fewer crates is dotted, and
    of as many the one whose crates begin later in crates.txt."""
    all_of = arrows()
    order = list(uses_of_crates())
    weight = {ends: (len(pairs), -order.index(pairs[0][0])) for ends, pairs in all_of.items()}
    dotted = {ends for ends in all_of if ends[::-1] in weight and weight[ends] < weight[ends[::-1]]}
    below = {name: {lower for upper, lower in all_of.keys() - dotted if upper == name} for name in rooms()}
    try:
        order = list(graphlib.TopologicalSorter(below).static_order())
    except graphlib.CycleError as error:
        return "These rooms stand on each other in a circle, so they have no picture: " + ", ".join(error.args[1]) + ".\n"
    reached = {}
    for name in order:
        reached[name] = below[name].union(*(reached[lower] for lower in below[name]))
    lines = ["```mermaid", "flowchart TB"] + [f'    {name}["{room.title.replace("`", "")}"]' for name, room in rooms().items()]
    for name in rooms():
        follow = set().union(*(reached[lower] for lower in below[name]))
        lines += [f"    {name} --> {lower}" for lower in rooms() if lower in below[name] - follow]
        lines += [f"    {name} -.-> {lower}" for lower in rooms() if (name, lower) in dotted]
    lines += ["```"]
    if dotted:
        pairs = ", ".join(f"`{upper}` uses `{lower}`" for ends in sorted(dotted) for upper, lower in all_of[ends])
        lines += ["", f"Dotted arrows lead back to a room that stands on this one: {pairs}."]
    return "\n".join(lines) + "\n"


def write_page():
    text = with_rows(read(PAGE))
    with open(PAGE, "w", encoding="utf-8") as file:
        file.write(text)
    write(PAGE, picture())


def faults():
    """What doesn't fit between crates.txt, the rooms' pages, the table and the picture."""
    order = list(uses_of_crates())
    housed = [crate for room in rooms().values() for crate in room.crates + room.beside]
    told = {
        "crates.txt: {} stands on no page of docs/rooms": set(order).difference(housed),
        "docs/rooms: {} isn't in crates.txt": set(housed).difference(order),
        "docs/rooms: {} stands there twice": {crate for crate in housed if housed.count(crate) > 1},
        "crates.txt: {} stands before one that it uses": {crate for crate in order if uses_later(crate, order)},
        "docs/rooms: {} stands before one that it uses": {
            crate for room in rooms().values() for crate in room.crates if uses_later(crate, room.crates)
        },
        f"docs/rooms/{{}} has more than {MOST_LINES} lines": {
            room.page for room in rooms().values() if len(read(os.path.join(PAGES, room.page)).splitlines()) > MOST_LINES
        },
    }
    yield from (told_of.format(name) for told_of, names in told.items() for name in sorted(names))
    if with_rows(read(PAGE)) != read(PAGE):
        yield "docs/ARCHITECTURE.md, The rooms: the table has other crates than the rooms' pages"
    if generated(PAGE) != picture():
        yield "docs/ARCHITECTURE.md has another picture than crates.txt"


def uses_later(crate, order):
    """Whether a crate lists itself, or one that stands after it in this order."""
    return bool(set(uses_of_crates().get(crate, [])).intersection(order[order.index(crate):]))
