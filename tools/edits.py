#!/usr/bin/env python3
"""Tries wrong programs that the gate does not: tools/edits/CRATE/NAME.edit, in the form of crates/CRATE/must-fail (`rt must-fail`). The prover must
refuse each.

    tools/edits.py              every edit
    tools/edits.py CRATE ..     those of some crates
    tools/edits.py --list       their names

It works on a copy of the repository in a temporary folder, with what `rt check` kept in the crates' out/ (check them first: it proves the others again).
Its status is rt's, which is 1 too where an edit no longer fits the text. Python 3.9 or newer, run anywhere in the repository."""
import os
import shutil
import subprocess
import sys
import tempfile

ROOT = os.path.dirname(os.path.dirname(os.path.abspath(__file__)))
EDITS = os.path.join(ROOT, "tools", "edits")


def main():
    args = sys.argv[1:]
    crates = sorted(os.listdir(EDITS))
    if args == ["--list"]:
        for crate in crates:
            for name in sorted(os.listdir(os.path.join(EDITS, crate))):
                print("%s/%s" % (crate, name[: -len(".edit")]))
        return 0
    wrong = [a for a in args if a not in crates]
    if wrong:
        sys.exit("edits.py: no edits for %s (tools/edits has %s)" % (" ".join(wrong), " ".join(crates)))
    with tempfile.TemporaryDirectory() as copy:
        for name in ("crates.txt", "crates"):
            source, to = os.path.join(ROOT, name), os.path.join(copy, name)
            if os.path.isdir(source):
                shutil.copytree(source, to)
            else:
                shutil.copy(source, to)
        for crate in os.listdir(os.path.join(copy, "crates")):
            kept = os.path.join(copy, "crates", crate, "must-fail")
            shutil.rmtree(kept, ignore_errors=True)
            if os.path.isdir(os.path.join(EDITS, crate)):
                shutil.copytree(os.path.join(EDITS, crate), kept)
        return subprocess.call(["rt", "must-fail"] + (args or crates), cwd=copy)


if __name__ == "__main__":
    sys.exit(main())
