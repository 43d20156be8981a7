"""A scene as one HTML page, which needs nothing but itself."""
from dataclasses import dataclass
from html import escape
from pathlib import Path

from rehearsal.language.names import LEAF_FLAGS, letters
from rehearsal.picture.opened import ACCESSES, DOING, table_kind
from rehearsal.picture.scene import make_scene
from rehearsal.script.header import PAGE

STYLE = Path(__file__).with_name("style.css")
LETTERS = {"read": "R", "write": "W", "fetch": "X"}
MOST_WAYS = 8
MOST_OUTSIDE = 16


@dataclass
class Drawn:
    """The page, and its verdict in words."""

    html: str
    summary: str
    broken: bool


def draw(source, run, hidden, after):
    scene = make_scene(source, run, hidden, after)
    return Drawn(page(scene), summary(scene), scene.broken)


def summary(scene):
    lines = [f"{scene.moment}; {mode_text(scene.state)}"]
    for premise in scene.premises:
        lines.append(f"{'broken' if premise.faults else 'kept'}: {premise.says}")
        lines += [f"    {fault}" for fault in premise.faults]
    return "\n".join(lines + [f"note: {note}" for note in scene.notes])


def mode_text(state):
    return f"{'user' if state.user else 'supervisor'} mode, translation {'on' if state.translation else 'off'}"


def page(scene):
    title = f"Who can touch what: {scene.name}"
    body = [head(scene), verdict(scene), legend(), pages(scene), outside(scene), closed(scene)]
    return f"""<!DOCTYPE html>
<html lang="en">
<head>
<meta charset="utf-8">
<meta name="viewport" content="width=device-width, initial-scale=1">
<title>{escape(title)}</title>
<style>
{STYLE.read_text(encoding="utf-8")}</style>
</head>
<body>
{"".join(body)}</body>
</html>
"""


def element(name, content, kind=None):
    """`content` is HTML already."""
    attribute = f' class="{kind}"' if kind else ""
    return f"<{name}{attribute}>{content}</{name}>\n"


def head(scene):
    state, memory = scene.state, scene.access.memory
    facts = [scene.moment, mode_text(state), f"PTBR 0x{state.ptbr:X}", f"memory 0x{memory.base:X} to 0x{memory.end:X}"]
    items = "".join(element("li", escape(fact)) for fact in facts)
    title = element("h1", "Who can touch what") + element("p", escape(scene.name), "file")
    return title + element("ul", items, "facts")


# ---- the premises

def verdict(scene):
    items = "".join(premise_item(premise) for premise in scene.premises)
    items += "".join(element("li", f"<b>note</b> {escape(note)}", "note") for note in scene.notes)
    return element("h2", "The premises of demand 3") + element("ul", items, "premises")


def premise_item(premise):
    said = escape(premise.says)
    if not premise.faults:
        return element("li", f"<b>kept</b> {said}", "kept")
    faults = "".join(element("li", escape(fault)) for fault in shortened(premise.faults))
    return element("li", f"<b>broken</b> {said}" + element("ul", faults), "broken")


def shortened(items):
    """So many of them, and how many more there are."""
    items = list(items)
    more = len(items) - MOST_WAYS
    return items[:MOST_WAYS] + [f"and {more} more"] if more > 0 else items


# ---- the pages

def legend():
    entries = [(cell(access, True), f"open for {DOING[access]}") for access in ACCESSES]
    entries += [(cell("shut", False), "not open to users"), (mark("table", "table"), "read by the walk")]
    entries += [(mark("hidden", "hidden"), "kept from the task")]
    return element("ul", "".join(element("li", symbol + escape(meaning)) for symbol, meaning in entries), "legend")


def mark(text, kind):
    return element("span", escape(text), f"mark {kind}")


def cell(access, is_open):
    return element("span", LETTERS[access] if is_open else "", f"cell {access}" if is_open else "cell shut")


def pages(scene):
    rows = "".join(page_row(scene, frame) for frame in scene.access.memory.frames())
    titles = ("page", "users may", "holds", "through: address, rights, and where these stand")
    heads = element("div", "".join(element("div", title) for title in titles), "page titles")
    table = heads + rows if rows else "The memory has no page."
    return element("h2", "Physical pages") + element("div", table, "pages")


def page_row(scene, frame, kind="page"):
    access, opened = scene.access, scene.access.opened_for(frame)
    address = element("div", f"0x{frame * PAGE:05X}", "address")
    cells = element("div", "".join(cell(a, a in opened) for a in ACCESSES), "cells")
    row = address + cells + element("div", marks_of(scene, frame), "marks") + ways_of(access, frame)
    return element("div", row, kind + (" conflict" if is_conflict(scene, frame) else ""))


def is_conflict(scene, frame):
    """Whether a premise is broken in this page."""
    opened = scene.access.opened_for(frame)
    table = frame in scene.access.tables
    hidden = any(frame in each.frames() for each in scene.hidden)
    inside = frame in scene.access.memory.frames()
    return hidden and (table or bool(opened)) or table and inside and "write" in opened


def marks_of(scene, frame):
    marks = mark(f"{table_kind(scene.access, frame)} table", "table") if frame in scene.access.tables else ""
    return marks + "".join(mark(f"hidden {part}", "hidden") for part in hidden_parts(scene.hidden, frame))


def hidden_parts(hidden, frame):
    """Of each hidden range what lies in a page, by offsets; nothing where it is the whole page."""
    start, end = frame * PAGE, (frame + 1) * PAGE
    for each in hidden:
        first, last = max(each.start, start), min(each.end, end)
        if first < last:
            yield "" if (first, last) == (start, end) else f"0x{first:X}..0x{last:X}"


def ways_of(access, frame):
    opening = [way for way in access.into(frame) if opens_something(way)]
    items = "".join(element("li", escape(text)) for text in shortened(map(way_text, opening)))
    return element("ul", items, "ways") if items else element("div", "", "ways")


def opens_something(way):
    return any(way.opens(access) for access in ACCESSES)


def way_text(way):
    return f"0x{way.entry.page * PAGE:X} {letters(way.entry.flags, LEAF_FLAGS)}, {way.where.removeprefix('the ')}"


def outside(scene):
    """Pages beyond the memory that are tables or open: an access there is a bus error."""
    access = scene.access
    frames = sorted((access.tables | access.opened()) - set(access.memory.frames()))
    if not frames:
        return ""
    rows = "".join(page_row(scene, frame, "page beyond") for frame in frames[:MOST_OUTSIDE])
    more = len(frames) - MOST_OUTSIDE
    rest = element("p", f"and {more} more pages") if more > 0 else ""
    said = element("p", "There is no memory here: a user's access that the tables allow ends in a bus error.")
    return element("h2", "Pages outside the memory") + said + element("div", rows, "pages") + rest


def closed(scene):
    """Entries that give users nothing."""
    count = sum(not opens_something(way) for ways in scene.access.ways.values() for way in ways)
    if not count:
        return ""
    said = f"{count} further leaves or TLB entries open nothing to users: without U, or at or above 0xFFFF0000."
    return element("p", said, "closed")
