#!/usr/bin/env python3
"""Draws the crates by layers from crates.txt: tools/house.py > docs/figures/house.svg.

The lowest layer is at the bottom. Each crate is a box; a bold one is the entry crate of its layer,
and one with a red edge has functions that may wait. If the mouse rests on a box or a layer's
name, it is shown what that is for (from crates/README.md) and what the crate uses. Right of each
layer are those that it uses.

Ends with status 1 if crates/README.md isn't the list of these crates: its headings are the layers,
and below each is one row for each crate of the layer, in the order of crates.txt, bold if it is the
layer's entry, linked if the crate has a page, with entry points that occur in the crate's code. No
crate uses one that comes later.
"""
import glob
import os
import re
import sys
import textwrap

import svg

STYLES = f"""
text {{ {svg.FONT}; font-size: 12px; fill: #222 }}
.layer {{ font-size: 13px; font-weight: bold }}
.uses, .legend {{ font-size: 11px; fill: #666 }}
.row {{ fill: #f4f4f2 }}
.crate {{ fill: #fff; stroke: #9a9a94 }}
.door {{ fill: #dbe9f6; stroke: #4a7fb0 }}
.waits {{ stroke: #b3261e; stroke-width: 1.6 }}
.name, .bold {{ text-anchor: middle; pointer-events: none }}
.bold {{ font-weight: bold }}
"""
LEFT, MIDDLE, RIGHT, BOX, GAP = 144, 660, 262, 24, 6


class Crate:
    """A crate: whether it may wait, and the crates and libraries that it uses."""

    def __init__(self, line):
        head, _, below = line.partition(":")
        self.name, *self.words = head.split()
        self.below = below.split()
        self.waits = any(word.startswith("may_wait") for word in self.words)


class Layer:
    """A section of crates.txt: its name, what it is for, its doors and its crates."""

    def __init__(self, line):
        head = line[2:].partition(":")[0]
        self.name, self.text = head.split(",")[0].strip(), ""
        self.doors, self.crates = re.findall(r"door (\w+)", head), []


def layers_of(path):
    """The layers, the lowest first."""
    layers = []
    with open(path, encoding="utf-8") as given:
        for line in given.read().split("\n\n", 1)[1].split("\n"):
            if re.match(r"# [A-Z][\w ]*[,:]", line):
                layers.append(Layer(line))
            elif line.strip() and not line.startswith("#"):
                layers[-1].crates.append(Crate(line))
    return layers


class Row:
    """A row of the list of crates: the crate, whether it is bold, its link, purpose and entries."""

    def __init__(self, line):
        first, self.purpose, entries = line.strip("| \n").split(" | ")
        self.name, self.is_bold = re.search(r"`(\w+)`", first)[1], first.startswith("**")
        self.link = "".join(re.findall(r"\]\((.*?)\)", first))
        self.entries = re.findall(r"`(?:\w+::)?(\w+)`", entries)


def list_of(page):
    """The layers of the list of crates, each with its rows."""
    parts = re.split(r"^## ", page, flags=re.M)[1:]
    return {part.partition("\n")[0]: [Row(line) for line in part.split("\n")
                                      if re.match(r"\| \W*`", line)] for part in parts}


def code_of(name):
    """The text of a crate's code."""
    found = []
    for path in glob.glob(f"crates/{name}/src/**/*.rt", recursive=True):
        with open(path, encoding="utf-8") as given:
            found.append(given.read())
    return "".join(found)


def row_faults(row, layer):
    """What is wrong with a row."""
    if row.is_bold != (row.name in layer.doors):
        yield f"{row.name} is bold, or isn't, against crates.txt"
    if (not row.link and os.path.exists(f"crates/{row.name}/README.md")
            or row.link and not os.path.exists(f"crates/{row.link}")):
        yield f"{row.name} has a page without a link, or a link without a page"
    code = code_of(row.name)
    for entry in row.entries:
        if not re.search(rf"\b{entry}\b", code):
            yield f"{row.name} has no {entry}"


def list_faults(layers, listed):
    """What is wrong with the list of crates."""
    if [layer.name for layer in layers] != list(listed):
        yield "the headings aren't the layers of crates.txt"
    seen, crates = set(), [crate for layer in layers for crate in layer.crates]
    for crate in crates:
        seen.add(crate.name)
        for below in crate.below:
            if below not in seen and below in [other.name for other in crates]:
                yield f"{crate.name} uses {below}, which comes later"
    for layer in layers:
        rows = listed.get(layer.name, [])
        if [crate.name for crate in layer.crates] != [row.name for row in rows]:
            yield f"{layer.name}: its rows aren't the crates of crates.txt in their order"
        for row in rows:
            yield from row_faults(row, layer)


def broken_up(crates):
    """The crates in rows of boxes that fit, each with its place and width."""
    rows, x = [[]], 0
    for crate in crates:
        width = 14 + 7.2 * len(crate.name)
        if x + width > MIDDLE:
            rows.append([])
            x = 0
        rows[-1].append((crate, x, width))
        x += width + GAP
    return rows


def put_layer(drawing, layer, layers, purpose, y):
    """One layer from this height on; the height below it."""
    rows = broken_up(layer.crates)
    used = {below for crate in layer.crates for below in crate.below}
    others = [other.name for other in layers if other is not layer and any(
        crate.name in used for crate in other.crates)]
    uses = wrapped(others, 38)
    height = max(len(rows) * (BOX + GAP) + GAP, 14 * len(uses) + 12)
    drawing.box("row", 8, y, LEFT + MIDDLE + RIGHT, height, rx=4)
    name = textwrap.wrap(layer.name, 16)
    for at, line in enumerate(name):
        drawing.write("layer", 18, y + height / 2 + 12 + 16 * at - 8 * len(name), line,
                      hover=layer.text)
    for at, row in enumerate(rows):
        top = y + GAP + at * (BOX + GAP)
        for crate, x, width in row:
            put_crate(drawing, crate, crate.name in layer.doors, purpose, (LEFT + x, top, width))
    for at, line in enumerate(uses):
        drawing.write("uses", LEFT + MIDDLE + 22, y + 20 + 14 * at, line)
    return y + height + GAP


def put_crate(drawing, crate, is_door, purpose, place):
    """A crate's box and name."""
    x, y, width = place
    hover = f"{crate.name}: {purpose.get(crate.name, '')}; uses " + (
        ", ".join(crate.below) or "nothing")
    style = ("door" if is_door else "crate") + (" waits" if crate.waits else "")
    drawing.box(style, x, y, width, BOX, hover=hover, rx=3)
    drawing.write("bold" if is_door else "name", x + width / 2, y + 16, crate.name)


def wrapped(names, room):
    """Names in lines of at most so many characters."""
    lines = ["uses "]
    for name in names:
        piece = name + (", " if name != names[-1] else "")
        if len(lines[-1] + piece) > room:
            lines.append("")
        lines[-1] += piece
    return lines if names else []


def main():
    os.chdir(os.path.join(os.path.dirname(os.path.realpath(__file__)), ".."))
    with open("crates/README.md", encoding="utf-8") as given:
        page = given.read()
    layers, listed = layers_of("crates.txt"), list_of(page)
    texts = dict(re.findall(r"^## (.*)\n\n(.+)$", page, re.M))
    purpose = {row.name: row.purpose.replace("`", "") for rows in listed.values() for row in rows}
    wrong = list(list_faults(layers, listed))
    for each in wrong:
        print(f"crates/README.md: {each}", file=sys.stderr)
    drawing = svg.Drawing("The crates of foresight by layers, the lowest at the bottom", STYLES)
    y = 12
    for layer in reversed(layers):
        layer.text = texts.get(layer.name, "")
        y = put_layer(drawing, layer, layers, purpose, y)
    drawing.box("door", 18, y + 4, 16, 12, rx=2)
    drawing.write("legend", 40, y + 14, "the layer's entry")
    drawing.box("crate waits", 150, y + 4, 16, 12, rx=2)
    drawing.write("legend", 172, y + 14, "has functions that may wait")
    sys.stdout.write(drawing.text(LEFT + MIDDLE + RIGHT + 16, y + 26))
    sys.exit(bool(wrong))


if __name__ == "__main__":
    main()
