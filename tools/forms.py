#!/usr/bin/env python3
"""Counts the places in crates/*/src that are written in an older form of the language, for docs/DESIGN-PASS.md.

    tools/forms.py              a line for each form: how many places, and its name
    tools/forms.py FORM ..      the places of some forms, one a line
    tools/forms.py --at COMMIT  the same counts of another commit

The forms, by the points of the page:

    option      own enums of two cases of which one has no value, and enums of one case with values among cases without (errors aside)
    result      own enums with a case that holds a `Refusal` (errors aside)
    flag        structs that answer a value beside a field `done` or `found`
    code        numbers that stand for a kind: a parameter or field `kind`, `code`, `form` or `rule` of a whole number, outside #[repr(C)]
    returned    `if let Err(e) = .. { return Err(e); }` and arms that hand a refusal or a `None` on, where `?` says it
    twin        functions whose bodies are equal but for names, types and numbers (groups of two or more, each of its functions counts)
    taken       structs of a value and the place where the next begins
    counted     `while` and `loop`
    converted   functions of one argument that only copy a struct or an answer into another
    same        functions that compare field by field
    wide        functions of ten parameters or more
    lists       functions that take the four slices of a list apart: pairs, references, starts, items
    species     functions that take the four slices of species apart: own_ids, own_params, ids, params
    molecule    functions that take a molecule's slices apart: bonds, lengths, ks
    placed      functions that take a buffer of words and the place to write at
    searched    lists searched by hand
    chosen      functions that choose by a number which step to run

Python 3.9 or newer, run anywhere in the repository."""
import io
import os
import re
import subprocess
import sys
import tarfile

ROOT = os.path.dirname(os.path.dirname(os.path.abspath(__file__)))
WORDS = ("as break const continue else enum extern false fn for if impl in let loop match mod move mut pub ref return self Self static struct "
         "trait true type unsafe use where while").split()


def sources(commit):
    """Each file of crates/*/src as (path, text)."""
    if commit:
        done = subprocess.run(["git", "archive", commit, "crates"], cwd=ROOT, capture_output=True)
        if done.returncode:
            sys.exit("forms.py: %s is no commit of this repository that has crates/" % commit)
        packed = done.stdout
        with tarfile.open(fileobj=io.BytesIO(packed)) as tar:
            for member in sorted(tar.getmembers(), key=lambda m: m.name):
                if member.isfile() and re.match(r"crates/\w+/src/.*\.rt$", member.name):
                    yield member.name, tar.extractfile(member).read().decode()
        return
    for folder, _, names in sorted(os.walk(os.path.join(ROOT, "crates"))):
        for name in sorted(names):
            path = os.path.relpath(os.path.join(folder, name), ROOT)
            if re.match(r"crates/\w+/src/.*\.rt$", path):
                with open(path if os.path.isabs(path) else os.path.join(ROOT, path)) as f:
                    yield path, f.read()


def plain(text):
    """The text without comments and without the lines that speak to the prover."""
    kept = []
    for line in text.split("\n"):
        bare = re.sub(r"//.*", "", line)
        kept.append("" if re.match(r"\s*(ghost|requires|ensures)\b", bare) else bare)
    return "\n".join(kept)


def functions(text):
    """Each function as (line, name, parameters, body)."""
    for m in re.finditer(r"(?m)^( *)(?:pub(?:\([a-z]+\))? )?(?:extern \"C\" )?fn (\w+)[^(]*\(", text):
        depth, end = 1, m.end()
        while depth:
            depth += {"(": 1, ")": -1}.get(text[end], 0)
            end += 1
        start = text.find("{", end)
        stop = text.find("\n%s}" % m.group(1), start)
        if start < 0 or stop < 0:
            continue
        params = [p for p in re.split(r",(?![^<\[(]*[>\])])", text[m.end():end - 1]) if p.strip()]
        yield text.count("\n", 0, m.start()) + 1, m.group(2), params, text[start + 1:stop]


def shape(body):
    """A body with every name, type and number made alike."""
    return " ".join("n" if re.match(r"\d", t) else t if t in WORDS or not re.match(r"\w", t) else "x" for t in re.findall(r"\w+|[^\w\s]", body))


def find(files):
    found = {name: [] for name in re.findall(r"(?m)^    ([a-z]+) +[a-z`]", __doc__)}
    bodies = {}
    for path, text in files:
        crate = path.split("/")[1]
        text = plain(text)

        def at(form, line, what):
            found[form].append("%s:%d %s" % (path, line, what))

        for m in re.finditer(r"(?ms)((?:^#\[[^\n]*\n)*)^pub(?:\(crate\))? (enum|struct) (\w+)(?:<[^>]*>)? \{\n(.*?)^\}", text):
            line, body = text.count("\n", 0, m.start()) + 1, m.group(4)
            if "repr(C)" in m.group(1):
                continue
            if m.group(2) == "enum":
                cases = re.findall(r"(?m)^    (\w+)(\(|\s*\{)?", body)
                full = [c for c, v in cases if v]
                if re.search(r"\(Refusal\)", body) and len(cases) > 1 and not m.group(3).endswith("Error"):
                    at("result", line, m.group(3))
                elif len(full) == 1 and len(cases) > 1 and not m.group(3).endswith("Error"):
                    at("option", line, m.group(3))
            else:
                if re.search(r"(?m)^    (pub )?(done|found):", body):
                    at("flag", line, m.group(3))
                if re.search(r"(?m)^    (pub )?next: usize", body) and re.search(r"(?m)^    (pub )?value:", body):
                    at("taken", line, m.group(3))
                for kind in re.findall(r"(?m)^    (?:pub )?(kind|code|form|rule): [ui]\d", body):
                    at("code", line, "%s.%s" % (m.group(3), kind))
        for m in re.finditer(r"if let (?:\w+::)?(?:Err|Refused)\((\w+)\) = [^{]*\{\s*return (?:\w+::)?(?:Err|Refused)\(\1\);\s*\}"
                             r"|(?:\w+::)?(?:Err|Refused)\((\w+)\) => (?:return )?(?:\w+::)?(?:Err|Refused)\(\2\),"
                             r"|let (?:\w+::)?(?:Some|Is|To|Held)\(\w+\) = [^{]* else \{\s*return (?:\w+::)?(?:None|Off|Nowhere|Full);", text):
            at("returned", text.count("\n", 0, m.start()) + 1, m.group(0).split("\n")[0])
        for m in re.finditer(r"(?m)^\s*(while|loop)\b", text):
            at("counted", text.count("\n", 0, m.start()) + 1, text[m.start():text.find("\n", m.start())].strip())
        for line, name, params, body in functions(text):
            names = [p.split(":")[0].strip().split(" ")[-1] for p in params]
            if len(params) >= 10:
                at("wide", line, "%s (%d)" % (name, len(params)))
            for form, group in (("lists", "pairs references starts items"), ("species", "own_ids own_params ids params"), ("molecule", "bonds lengths ks")):
                if set(group.split()) <= set(names):
                    at(form, line, name)
            if re.search(r"&mut \[u64; 8208\]", " ".join(params)) and "at" in names:
                at("placed", line, name)
            if any(re.match(r"\s*(kind|code|form|rule): [ui]\d", p) for p in params):
                at("code", line, name)
            if re.search(r"(?m)^    while from < to", body):
                at("searched", line, name)
            if re.match(r"\s*match \w+ \{\s*(\d+|0x\w+) =>", body) and body.count("=>") > 2:
                at("chosen", line, name)
            if crate == "field_structs" and len(params) == 1 and name != "from":
                at("converted", line, name)
            if re.match(r"(is_)?(same|alike|equal)", name):
                at("same", line, name)
            if body.count("\n") > 4 and crate != "field":
                bodies.setdefault(shape(body), []).append("%s:%d %s" % (path, line, name))
    for group in bodies.values():
        if len(group) > 1:
            found["twin"] += ["%s  [%d alike]" % (place, len(group)) for place in group]
    return found


def main():
    args = sys.argv[1:]
    if args and args[-1] == "--at":
        sys.exit("forms.py: --at wants a commit after it")
    commit = args[args.index("--at") + 1] if "--at" in args else None
    wanted = [a for a in args if a != "--at" and a != commit]
    found = find(sources(commit))
    wrong = [w for w in wanted if w not in found]
    if wrong:
        sys.exit("forms.py: no form is called %s (the forms are %s)" % (" ".join(wrong), " ".join(found)))
    if not wanted:
        for form, places in found.items():
            print("%5d  %s" % (len(places), form))
    for form in wanted:
        for place in found[form]:
            print(place)
    return 0


if __name__ == "__main__":
    sys.exit(main())
