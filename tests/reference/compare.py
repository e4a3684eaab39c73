#!/usr/bin/env python3
"""Holds the program to the reference: compare.py PROGRAM SAVE COUNT SEED [SCENARIO...]

The named scenarios first, then COUNT random ones from SEED on. The first that differs
is saved in the folder SAVE, with what each of the two printed.
"""

import pathlib
import re
import subprocess
import sys

from generate import scenario
from replay import play


def differs(program, text):
    """What the two print, if it is not the same."""
    run = subprocess.run([program], input=text.encode("utf-8"), stdout=subprocess.PIPE, check=False)
    found = run.stdout
    expected = play(text).encode("utf-8")
    if run.returncode == 0 and found == expected:
        return None
    return expected, found


def tell(save, name, text, expected, found):
    save.mkdir(parents=True, exist_ok=True)
    (save / "scenario").write_bytes(text.encode("utf-8"))
    (save / "reference").write_bytes(expected)
    (save / "program").write_bytes(found)
    print(f"{name}: the program differs from the reference; see {save}")


def count(kinds, text):
    """How often each kind of answer comes."""
    for line in play(text).splitlines():
        kind = re.search(r"refused \d+$|^line |: done$|: column \d+ counter \d+$|values?$|bytes$", line)
        if kind and not line.startswith((" ", "#")):
            name = kind.group()
            name = "put" if name.startswith(": column") else name
            name = "get" if name.startswith("value") else name
            name = "send" if name == "bytes" else name
            name = "bad line" if name == "line " else name
            name = "done" if name == ": done" else name
            kinds[name] = kinds.get(name, 0) + 1


def main():
    program, save, random, seed = sys.argv[1], pathlib.Path(sys.argv[2]), int(sys.argv[3]), int(sys.argv[4])
    scenarios = [(name, pathlib.Path(name).read_bytes().decode("utf-8")) for name in sys.argv[5:]]
    scenarios += [(f"seed {seed + at}", scenario(seed + at)) for at in range(random)]
    kinds = {}
    for name, text in scenarios:
        difference = differs(program, text)
        if difference is not None:
            tell(save, name, text, *difference)
            return 1
        count(kinds, text)
    told = ", ".join(f"{kinds[kind]} {kind}" for kind in sorted(kinds))
    print(f"{len(scenarios)} scenarios compared, all the same: {told}")
    return 0


if __name__ == "__main__":
    sys.exit(main())
