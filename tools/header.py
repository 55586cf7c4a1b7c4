#!/usr/bin/env python3
"""Writes include/tyngyrlak.h from the sources: the exported functions of crates/field, the #[repr(C)] structs that they name, the refusals of
crates/answer, each with its comment. `--check` compares and exits 1 where the file is not what the sources say. Python 3.9 or newer, run anywhere
in the repository."""
import os
import re
import sys
import textwrap

ROOT = os.path.dirname(os.path.dirname(os.path.abspath(__file__)))
HEADER = os.path.join(ROOT, "include", "tyngyrlak.h")
GROUPS = ["floats", "cells", "virials", "pairs", "boxes", "parts", "frames", "skins", "counts", "clumps", "sheets", "desks", "forces", "angles", "speeds", "motion", "settlings", "strikes"]
STRUCTS = ["cell/src/lib", "virial/src/lib", "potentials/src/lib", "potentials_angle/src/lib", "frame/src/lib", "strike/src/lib", "field_structs/src/lib"]
NUMBERS = {"f64": "double", "u8": "uint8_t", "u32": "uint32_t", "u64": "uint64_t", "i32": "int32_t", "i64": "int64_t", "usize": "size_t"}

TOP = """\
/* Tyngyrlak for C: pair lists, Lennard-Jones, Coulomb, bonds, angles, Verlet with Berendsen. Made by tools/header.py from the library's sources; do not edit.
 *
 * Answers. Every answer has a `done`: number 0 and place 0 where the call is answered, else a refusal's number (tyn_refusal) and its place, which is 0
 * unless the number names one. The other values are zeros where the call is refused, but for a list's state and a step's potential, which come back in every case.
 *
 * Flags are read as C does: 0 is no, any other number is yes. A flag that is handed back is 0 or 1.
 *
 * Memory. A table or a room is a pointer and the number of its elements. The caller sees to it that each pointer
 *   - is not NULL, also where the number is 0, and is aligned for its elements;
 *   - points to so many elements, in one object, that can be read, and written unless the pointer is to const, while the call runs;
 *   - is of elements that hold values (rooms too: clear them once), which no other thread writes, or reads where the call writes, while the call runs;
 *   - if it is not to const, shares no element with any other pointer of the call.
 * The library keeps no pointer, takes no memory of its own but the stack (half a megabyte in tyn_evaluate, tyn_step and tyn_finish) and asks memcpy
 * and memset of the C library, nothing else.
 *
 * Three floats an atom (x, y, z), two numbers a pair, bond or exclusion, three an angle. At most 16384 atoms. docs/DECISIONS.md and the scope paper have the ranges. */
"""


def read(path):
    with open(os.path.join(ROOT, path), encoding="utf-8") as f:
        return f.read()


def snake(name):
    name = name[4:] if name.startswith("Flat") else name
    return "tyn_" + re.sub(r"(?<=[a-z0-9])(?=[A-Z])", "_", name).lower()


def comment_before(lines, at):
    """The comment lines right above line `at`, attributes passed over, as one text."""
    words = []
    while at > 0 and (lines[at - 1].startswith("//") or lines[at - 1].startswith("#[")):
        at -= 1
        if lines[at].startswith("//") and not lines[at].startswith("// ----"):
            words.insert(0, lines[at][2:].strip())
    return " ".join(words).replace("`", "")


def structs():
    found = {}
    for source in STRUCTS:
        lines = read("crates/%s.rt" % source).split("\n")
        for at, line in enumerate(lines):
            m = re.match(r"pub struct (\w+) \{$", line)
            marks = at
            while lines[marks - 1].startswith("#["):
                marks -= 1
            if m and "#[repr(C)]" in lines[marks:at]:
                fields = []
                for field in lines[at + 1 : lines.index("}", at)]:
                    f = re.match(r"    pub (\w+): (.+),$", field)
                    if f:
                        fields.append((f.group(1), f.group(2)))
                found[m.group(1)] = (comment_before(lines, at), fields)
    return found


def exports(group):
    text = read("crates/field/src/%s.rt" % group)
    lines = text.split("\n")
    found = []
    for at, line in enumerate(lines):
        m = re.match(r'pub extern "C" fn (\w+)(?:<\'a>)?\(', line)
        if m:
            signature = "\n".join(lines[at:])
            s = re.match(r'pub extern "C" fn \w+(?:<\'a>)?\((.*?)\)(?: -> (\w+))?\n', signature, re.S)
            params = [tuple(p.strip().split(": ", 1)) for p in s.group(1).split(",") if p.strip()]
            found.append((m.group(1), comment_before(lines, at), params, s.group(2)))
    return found


def c_type(t, known):
    if t in NUMBERS:
        return NUMBERS[t]
    if t in known:
        return snake(t)
    sys.exit("header.py: no C type for %s" % t)


def field(name, t, known):
    m = re.match(r"\[(\w+); (\d+)\]$", t)
    if m:
        return "%s %s[%s];" % (c_type(m.group(1), known), name, m.group(2))
    return "%s %s;" % (c_type(t, known), name)


def parameter(name, t, known):
    m = re.match(r"&(?:'a )?(mut )?\[(\w+)\]$", t)
    if m:
        return ["%s%s *%s" % ("" if m.group(1) else "const ", c_type(m.group(2), known), name), "size_t %s_len" % name]
    return ["%s %s" % (c_type(t, known), name)]


def declared(result, name, params):
    """A prototype, broken between parameters."""
    lines = ["%s %s(" % (result, name)]
    for at, p in enumerate(params or ["void"]):
        word = p + (", " if at + 1 < len(params) else ");")
        if len(lines[-1]) + len(word) > 150:
            lines.append("    ")
        lines[-1] += word
    return "\n".join(l.rstrip() for l in lines) + "\n"


def commented(text):
    return textwrap.fill(text, 150, initial_indent="/* ", subsequent_indent=" * ") + " */\n"


def refusals():
    text = read("crates/answer/src/lib.rt")
    cases = text[text.index("pub enum Refusal {") : text.index("impl Refusal")]
    numbers = dict(re.findall(r"Refusal::(\w+)(?: \{[^}]*\})? => (\d+),", text[text.index("pub fn number") : text.index("pub fn place")]))
    out = "/* The refusals. */\nenum tyn_refusal {\n    TYN_ANSWERED = 0,\n"
    for words, case in re.findall(r"// \d+(?:, place 1)?: (.*)\n    (\w+)", cases):
        if case in ("Drifted", "HouseOrder"):
            continue
        name = "TYN_" + re.sub(r"(?<=[a-z])(?=[A-Z])", "_", case).upper()
        if case == "Range":
            words += "; place 1: a drifted coordinate"
        if case == "Order":
            words += "; place 1: the house's species"
        out += "    /* %s */\n    %s = %s,\n" % (words, name, numbers[case])
    # 12 is a case of `sheet_moved::Moved`, 13 of `shells::Counted`: no other call has them
    out += "    /* a sheet can't go back to the first form: its rule is 2 (place 0xffffffff), or a species is not 0 (place: the lowest such atom) */\n    TYN_TYPED = 12,\n"
    out += "    /* a total would pass 2^64 - 1: the list is there, the totals are as they came */\n    TYN_FULL = 13,\n"
    return out.rstrip(",\n") + "\n};\n"


def used(names, known):
    """The structs that are named, each after those that it holds."""
    order = []

    def visit(t):
        if t in known and t not in order:
            for _, inner in known[t][1]:
                visit(inner)
            order.append(t)

    for t in names:
        visit(t)
    return order


def header():
    known = structs()
    groups = [(g, exports(g)) for g in GROUPS]
    named = [t for _, fs in groups for _, _, params, ret in fs for t in [p for _, p in params] + [ret]]
    out = TOP + "#ifndef TYNGYRLAK_H\n#define TYNGYRLAK_H\n\n#include <stddef.h>\n#include <stdint.h>\n\n#ifdef __cplusplus\nextern \"C\" {\n#endif\n\n"
    out += refusals() + "\n"
    for t in used(named, known):
        words, fields = known[t]
        out += commented(words) if words else ""
        out += "typedef struct {\n" + "".join("    %s\n" % field(n, ft, known) for n, ft in fields) + "} %s;\n\n" % snake(t)
    for group, fs in groups:
        first = read("crates/field/src/%s.rt" % group).split("\n\n")[0]
        head = " ".join(l[2:].strip() for l in first.split("\n") if l.startswith("//"))
        out += "/* ---- %s */\n\n" % head
        for name, words, params, ret in fs:
            if not words:
                sys.exit("header.py: %s has no comment" % name)
            ps = [c for n, t in params for c in parameter(n, t, known)]
            result = c_type(ret, known) if ret else "void"
            out += commented(words) + declared(result, name, ps) + "\n"
    return out + "#ifdef __cplusplus\n}\n#endif\n\n#endif\n"


def main():
    text = header()
    if sys.argv[1:] == ["--check"]:
        if not os.path.exists(HEADER) or read("include/tyngyrlak.h") != text:
            sys.exit("header.py: include/tyngyrlak.h is not what the sources say; run tools/header.py")
        print("header.py: include/tyngyrlak.h is as the sources say")
        return
    os.makedirs(os.path.dirname(HEADER), exist_ok=True)
    with open(HEADER, "w", encoding="utf-8") as f:
        f.write(text)


main()
