#!/usr/bin/env python3
"""One name means one thing: lists each name that the specs of two crates declare, but for what both frames say of themselves and what every call has.

    tools/names.py        the names, and where they stand; status 1 if there are any

Python 3.9 or newer, run anywhere in the repository."""
import collections
import glob
import os
import re
import sys

ROOT = os.path.dirname(os.path.dirname(os.path.abspath(__file__)))
# one vocabulary for the float frame and the whole-number frame
FRAMES = {"frame", "neighbor", "neighbor_grid", "neighbor_listing"}
# what a call is given, what it leaves, and how an answer and its memory are shown as that
CALL = {"Given", "Outcome", "given", "shown"}
DECLARED = re.compile(r"^(?:(?:abbrev|unfoldable|opaque|rec|pub) )*(?:(?:data|record) )?([^\W\d][\w'-]*)(?: \(.*)? ?:(?!:)")


def main():
    where = collections.defaultdict(lambda: collections.defaultdict(list))
    for path in sorted(glob.glob(os.path.join(ROOT, "crates", "*", "specs", "**", "*.antt"), recursive=True)):
        crate = os.path.relpath(path, os.path.join(ROOT, "crates")).split(os.sep)[0]
        with open(path, encoding="utf-8") as f:
            for number, line in enumerate(f, 1):
                found = DECLARED.match(line)
                if found and not line.startswith(("use ", "mod ", "module ")):
                    where[found.group(1)][crate].append("%s:%d" % (os.path.relpath(path, ROOT), number))
    twice = {n: c for n, c in where.items() if len(c) > 1 and not set(c) <= FRAMES and n not in CALL}
    for name in sorted(twice):
        print("%s: %s" % (name, ", ".join(place for places in twice[name].values() for place in places)))
    print("names.py: %d names, %d in two crates" % (len(where), len(twice)))
    return 1 if twice else 0


if __name__ == "__main__":
    sys.exit(main())
