#!/usr/bin/env python3
"""Builds the static library over what `rt ci` leaves: embedding/library.py FILE.a.

`rt ci` proves foresight_c and keeps nothing of it, and `rt lib` doesn't take the libraries below it
that `rt ci` built (they hold statements, and no stamp), but proves each of them again. So rattle is
called here as both call it, over crates/*/out/rlib: it checks foresight_c alone once more, and
compiles it. Where a library of those isn't there, since `rt ci` kept what an earlier run had proved,
or is of another text, nothing is built, and the status is 2.
"""
import os
import subprocess
import sys

NAME = "foresight_c"
ROOT = os.path.dirname(os.path.dirname(os.path.realpath(__file__)))


def kit_folder():
    """The folder of the toolchain."""
    page = subprocess.run(["rt", "doc"], capture_output=True, text=True, check=True).stdout
    return os.path.dirname(page.strip())


def uses():
    """What each crate names as its libraries, by the rows of crates.txt."""
    found = {}
    with open(f"{ROOT}/crates.txt", encoding="utf-8") as rows:
        for row in rows:
            head, _, names = row.split("#")[0].partition(":")
            if head.split():
                found[head.split()[0]] = names.split()
    return found


def below(name, rows, found):
    """The repository's crates that a crate reaches, each once."""
    for each in rows[name]:
        if each in rows and each not in found:
            found.append(each)
            below(each, rows, found)
    return found


def rlib(name):
    """The folder where a crate's library lies."""
    return f"{ROOT}/crates/{name}/out/rlib"


def unfit(kit, names):
    """What is wrong with the libraries of these crates."""
    lacking = [name for name in names if not os.path.isdir(f"{rlib(name)}/{name}.rlib")]
    if lacking:
        return f"rt ci left no library of {len(lacking)} crates ({lacking[0]}, ..)"
    # What a crate's own check built has a stamp, and rt ci puts it back as it was.
    sys.path.insert(0, f"{kit}/bin")
    sys.dont_write_bytecode = True
    import rtlib
    os.chdir(f"{ROOT}/crates/{NAME}")
    crates = rtlib.Crate(os.getcwd(), ROOT, {}).below()
    old = [it.name for it in crates
           if os.path.exists(f"{rlib(it.name)}/stamp") and not it.is_built()]
    if old:
        return f"the library of {' '.join(old)} is of another text: remove crates/*/out, run rt ci"
    return None


def words(kit, rows, names):
    """What rattle is called with, but for what it does."""
    given = ["--crate-name", NAME, "src/lib.rt", "--crate-type", "staticlib"]
    for name in ["std", *rows[NAME]]:
        of = f"{rlib(name)}/{name}.rlib" if name in rows else f"{kit}/rlibs/{name}.rlib"
        given += ["--extern", f"{name}={of}"]
    for folder in [f"{kit}/rlibs", *map(rlib, names)]:
        given += ["-L", f"dependency={folder}"]
    return [*given, "--antt-project", f"{kit}/rattle/logic/antt-project.json",
            "--logic-built", f"{kit}/logic_built", "--links", f"{NAME}="]


def main():
    """Builds it; what rattle says is shown where it fails."""
    archive, kit, rows = os.path.abspath(sys.argv[1]), kit_folder(), uses()
    names = below(NAME, rows, [])
    why = unfit(kit, names)
    if why:
        print(why)
        return 2
    ran = subprocess.run(
        [f"{kit}/bin/rattle", "build", *words(kit, rows, names), "--toolchain", f"{kit}/toolchain",
         "-o", archive], cwd=f"{ROOT}/crates/{NAME}", capture_output=True, text=True)
    if ran.returncode:
        print(f"{ran.stdout}{ran.stderr}rattle ended with {ran.returncode}: no library was built")
    return int(ran.returncode != 0)


if __name__ == "__main__":
    sys.exit(main())
