#!/usr/bin/env python3
"""Draws figures of time: tools/figures.py [FOLDER] writes peers.svg and callers.svg.

The folder is docs/figures by default. bench/figures.csv has a line for each session: its name, and
for each number of callers the time as a multiple of a sequential program's. The first line that
begins with # stands below each picture. peers.svg has these multiples as bars; callers.svg has a
line for each session, by the number of callers, as a part of the time of one.
"""
import csv
import os
import sys

import svg

HERE = os.path.dirname(os.path.realpath(__file__))
COLOURS = ["#4a7fb0", "#5b9a68", "#c08a2e", "#9a5fa0", "#b3554a", "#4f9c97", "#6b6b6b", "#a06a3c"]
SHADES = {1: "#9dc3e6", 2: "#6fa3d2", 4: "#4a7fb0", 8: "#2f5b85"}
WIDTH, SCALE = 820, 56
STYLES = f"""
text {{ {svg.FONT}; font-size: 12px; fill: #222 }}
.title {{ font-size: 14px; font-weight: bold }}
.small {{ font-size: 11px; fill: #666 }}
.axis {{ stroke: #bbb }}
.one {{ stroke: #222; stroke-dasharray: 3 3 }}
.curve {{ fill: none; stroke-width: 2 }}
"""


def read(path):
    """Each session's name with its ratios by the number of callers, and what stands below."""
    with open(path, encoding="utf-8") as given:
        lines = given.readlines()
    note = next(line[1:].strip() for line in lines if line.startswith("#"))
    rows = csv.reader(line for line in lines if not line.startswith("#"))
    _, *counts = next(rows)
    return {name.replace("`", ""): dict(zip(map(int, counts), map(float, ratios)))
            for name, *ratios in rows}, note


def named(callers):
    """A number of callers in words."""
    return f"{callers} caller{'s' if callers > 1 else ''}"


def draw_peers(sessions, note):
    """Bars by session, as multiples of the sequential program's time."""
    drawing, left, y = svg.Drawing("Time of whole processes by session", STYLES), 12, 66
    drawing.write("title", left, 22, "Time as a multiple of a sequential program's (dashed: 1)")
    for at, callers in enumerate(SHADES):
        drawing.box("bar", left + 110 * at, 36, 14, 11, fill=SHADES[callers])
        drawing.write("small", left + 110 * at + 20, 46, named(callers))
    for session, ratios in sessions.items():
        drawing.write("name", left, y + 11, session)
        y += 17
        top = y
        for callers, ratio in ratios.items():
            drawing.box("bar", left, y, SCALE * ratio, 11, fill=SHADES[callers],
                        hover=f"{session}, {named(callers)}: {ratio:g}")
            drawing.write("small", left + SCALE * ratio + 5, y + 9.5, f"{ratio:g}")
            y += 13
        drawing.line("one", left + SCALE, top - 2, left + SCALE, y)
        y += 10
    drawing.write("small", left, y + 10, note)
    return drawing.text(WIDTH, y + 22)


def draw_callers(sessions, note):
    """A line for each session, by the number of callers."""
    left, right, top, bottom = 52, 380, 44, 330
    drawing = svg.Drawing("Time by the number of callers", STYLES)
    drawing.write("title", 12, 22, "Time by the number of callers, as a part of one caller's")
    counts = list(next(iter(sessions.values())))
    parts = {session: [ratios[count] / ratios[counts[0]] for count in counts]
             for session, ratios in sessions.items()}
    most = max(max(part) for part in parts.values())

    def place(at, part):
        return (left + at / (len(counts) - 1) * (right - left),
                bottom - part / (most * 1.05) * (bottom - top))

    for half in range(0, int(most * 2) + 1):
        _, y = place(0, half / 2)
        drawing.line("axis", left, y, right, y)
        drawing.write("small", left - 8, y + 4, f"{half / 2:g}", text_anchor="end")
    for at, count in enumerate(counts):
        drawing.write("small", place(at, 0)[0], bottom + 18, named(count), text_anchor="middle")
    ends = []
    for (session, part), colour in zip(parts.items(), COLOURS):
        points = [place(at, each) for at, each in enumerate(part)]
        drawing.put("polyline", class_="curve", stroke=colour,
                    points=" ".join(f"{x:.1f},{y:.1f}" for x, y in points),
                    hover=f"{session}: " + ", ".join(f"{each:.2f}" for each in part))
        ends.append((points[-1][1], session, colour))
    below = 0
    for y, session, colour in sorted(ends):
        below = max(y + 4, below + 15)
        drawing.write("name", right + 10, below, session, style=f"fill: {colour}; font-size: 11px")
    drawing.write("small", 12, bottom + 44, note)
    return drawing.text(WIDTH, bottom + 54)


def main():
    folder = sys.argv[1] if len(sys.argv) > 1 else os.path.join(HERE, "../docs/figures")
    sessions, note = read(os.path.join(HERE, "../bench/figures.csv"))
    for name, draw in (("peers", draw_peers), ("callers", draw_callers)):
        with open(os.path.join(folder, f"{name}.svg"), "w", encoding="utf-8") as file:
            file.write(draw(sessions, note))


if __name__ == "__main__":
    main()
