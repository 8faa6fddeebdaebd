#!/usr/bin/env python3
"""Copies the server's sources with an edit, whose text is once there: plant.py EDIT FOLDER"""
import os
import shutil
import sys

edit, folder = sys.argv[1:]
source = os.path.join(os.path.dirname(os.path.realpath(__file__)), "..", "src")
shutil.copytree(source, folder, dirs_exist_ok=True)
with open(edit, encoding="utf-8") as given:
    said = dict(line.rstrip("\n").split(": ", 1) for line in given)
path = f"{folder}/{said['file']}"
with open(path, encoding="utf-8") as given:
    text = given.read()
if text.count(said["old"] + "\n") != 1:
    sys.exit(f"{edit}: its text isn't once in {said['file']}")
with open(path, "w", encoding="utf-8") as out:
    out.write(text.replace(said["old"] + "\n", said["new"] + "\n"))
