#!/usr/bin/env python3
"""Counts what crates.txt says of the layers: tools/layers.py [CRATE..].

Prints how many edges there are between the crates of this repository, the longest chain, and for
each crate how many crates are proved again after it changes, itself among them, most first; with
names only for those, and which ones.
"""
import os
import sys

os.chdir(os.path.join(os.path.dirname(os.path.realpath(__file__)), ".."))
with open("crates.txt", encoding="utf-8") as given:
    lines = [line.split("#")[0] for line in given]
rows = {line.partition(":")[0].split()[0]: line.partition(":")[2].split()
        for line in lines if line.strip()}
uses = {name: [each for each in row if each in rows] for name, row in rows.items()}
users = {name: [each for each, row in uses.items() if name in row] for name in rows}
chains = {}


def chain(name):
    """The longest chain of crates from one down, itself last."""
    if name not in chains:
        chains[name] = max((chain(each) for each in uses[name]), key=len, default=[]) + [name]
    return chains[name]


def above(name, found):
    """All crates that are proved again after one changes, but for itself."""
    for each in users[name]:
        if each not in found:
            found.add(each)
            above(each, found)
    return found


longest = max((chain(name) for name in rows), key=len)
print(f"{len(rows)} crates, {sum(map(len, uses.values()))} edges between them")
print(f"longest chain: {len(longest)} ({' '.join(longest)})")
for name in sorted(sys.argv[1:] or rows, key=lambda each: -len(above(each, set()))):
    again = above(name, set())
    names = " " + " ".join(sorted(again)) if sys.argv[1:] else ""
    print(f"{len(again) + 1:4} {name}{names}")
