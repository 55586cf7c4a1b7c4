#!/usr/bin/env python3
"""Writes python/tyngyrlak/_raw.py: the structs and functions of include/tyngyrlak.h for ctypes, the words of refusals from rust/src/error.rs, and the unit
constants from rust/build.rs. `--check` compares and exits 1 where the file is not what they say. Python 3.9 or newer, run anywhere in the repository."""
import os
import re
import sys

ROOT = os.path.dirname(os.path.dirname(os.path.abspath(__file__)))
MADE = "python/tyngyrlak/_raw.py"
# C's name, ctypes' and numpy's
NUMBERS = {
    "double": ("c_double", "float64"),
    "uint8_t": ("c_uint8", "uint8"),
    "uint32_t": ("c_uint32", "uint32"),
    "uint64_t": ("c_uint64", "uint64"),
    "int32_t": ("c_int32", "int32"),
    "int64_t": ("c_int64", "int64"),
    "size_t": ("c_size_t", "uint64"),
}
TOP = '''\
"""The structs and functions of include/tyngyrlak.h, the words of refusals, the unit constants. Made by python/declare.py; do not edit."""
from ctypes import Structure, c_double, c_int32, c_int64, c_size_t, c_uint8, c_uint32, c_uint64

from ._library import Call
from ._library import Lent as lent, Plain as plain, Whole as whole

'''


def read(path):
    with open(os.path.join(ROOT, path), encoding="utf-8") as f:
        return f.read()


def camel(name):
    return "".join(w.capitalize() for w in name.removeprefix("tyn_").split("_"))


def ctype(t):
    return NUMBERS[t][0] if t in NUMBERS else camel(t)


def words_before(text, at):
    """The comment that ends right before place `at`, as one text."""
    m = re.search(r"/\*((?:(?!\*/).)*)\*/\n$", text[:at], re.S)
    return " ".join(re.sub(r"\n \*", " ", m.group(1)).split()) if m else ""


def structs(header):
    for m in re.finditer(r"^typedef struct \{\n(.*?)\} (\w+);", header, re.S | re.M):
        fields = []
        for t, name, count in re.findall(r"^    (\w+) (\w+)(?:\[(\d+)\])?;", m.group(1), re.M):
            fields.append('("%s", %s)' % (name, ctype(t) + (" * " + count if count else "")))
        yield m.group(2), words_before(header, m.start()), fields


def calls(header):
    for m in re.finditer(r"^(\w+) (tyn_\w+)\(([^)]*)\);", header, re.M):
        params = []
        for p in [] if m.group(3).strip() == "void" else m.group(3).split(","):
            const, t, star, name = re.fullmatch(r"\s*(const )?(\w+) (\*?)(\w+)\s*", p).groups()
            if star:
                params.append('lent("%s", "%s", %s)' % (name, NUMBERS[t][1], not const))
            elif t == "size_t" and name.endswith("_len") and params and params[-1].startswith('lent("%s"' % name[:-4]):
                continue
            else:
                kind = "whole" if t in NUMBERS and t != "double" else "plain"
                params.append('%s("%s", %s)' % (kind, name, ctype(t)))
        yield m.group(2), m.group(1), params, words_before(header, m.start())


def laid(opening, items, closing):
    """Items between brackets, lines of at most 150."""
    one = opening + ", ".join(items) + ("," if len(items) == 1 and opening.endswith("(") else "") + closing
    if len(one) <= 150:
        return one + "\n"
    lines = ["    "]
    for item in items:
        if len(lines[-1]) + len(item) + 2 > 150:
            lines.append("    ")
        lines[-1] += ("" if lines[-1] == "    " else " ") + item + ","
    return opening + "\n" + "\n".join(lines) + "\n" + closing.lstrip() + "\n"


def made():
    header = read("include/tyngyrlak.h")
    out = TOP
    enum = re.search(r"^enum tyn_refusal \{(.*?)\};", header, re.S | re.M).group(1)
    out += laid("REFUSALS = {", ['"%s": %s' % (n, k) for n, k in re.findall(r"TYN_(\w+) = (\d+)", enum)], "}")
    arms = re.search(r"pub fn words\(.*?\n    \}\n", read("rust/src/error.rs"), re.S).group(0)
    rows = re.findall(r'\((\d+), (\w+)\) => ("[^"]*")', arms)
    out += "\n# number, place (None: any), words; the first row that fits\nWORDS = (\n"
    out += "".join("    (%s, %s, %s),\n" % (n, "None" if p == "_" else p.replace("_", ""), w) for n, p, w in rows) + ")\n"
    units = re.search(r'^const UNITS: &str = "([0-9a-f,]+)"', read("rust/build.rs"), re.M).group(1)
    out += '\n# the bits of FORCE_TO_ACCEL, KB_EV_PER_K, KE_COULOMB, EV_PER_A3_TO_GPA\nUNITS = "%s"\n' % units
    for name, words, fields in structs(header):
        out += "\n\nclass %s(Structure):\n" % camel(name)
        out += '    """%s"""\n\n' % words if words else ""
        out += "    " + laid("_fields_ = [", fields, "]").replace("\n    ", "\n        ").replace("\n]", "\n    ]")
    out += "\n"
    for name, answer, params, words in calls(header):
        out += "\n" + laid('%s = Call("%s", %s, (' % (name, name, ctype(answer)), params, '), "%s")' % words.replace('"', "'"))
    return out


def main():
    text = made()
    if sys.argv[1:] == ["--check"]:
        if read(MADE) != text:
            sys.exit("declare.py: %s is not what the header says; run python/declare.py" % MADE)
        print("declare.py: %s is as the header says" % MADE)
        return
    with open(os.path.join(ROOT, MADE), "w", encoding="utf-8") as f:
        f.write(text)


main()
