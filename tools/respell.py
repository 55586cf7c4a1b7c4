#!/usr/bin/env python3
"""Brings the repository's own definitions and lemmas to snake case, as the library spells its words.

usage: python3 tools/respell.py [--dry]     at the top of the repository, once, right after the kit's port.py

A name that this repository declares in specs/ or proofs/ (a definition, a lemma, a field or a case in small letters) and that has
a capital or a dash inside is written in small letters with `_`: absOf is abs_of, max-same is max_same. Types, facts and modules
keep their capitals. Names of the library, names that Rattle makes (what stands in a Proof.antt alone) and names in src/ stay.
Where two names would fall together in a file, one of them, the lemma where there is one, gets `_lem`: box-less beside boxLess is box_less_lem.
A name with a middle dot loses it: the module `X·cases` becomes XCases, and `Found·outcome` found_outcome.
"""

import collections
import glob
import re
import sys

# what parts the words of a file
WORD = re.compile(r"[^\s(){}\[\].,;:=λ⌜⌝\"|·]+")
HEAD = re.compile(r"^\s*(?:(?:abbrev|unfoldable|pub|record|data|infixl?r?)\s+)*([^\s:(){}\[\].,;=]+(?:\s+[^\s:(){}\[\].,;=]+)*) : ?")


def snake(n):
    n = re.sub(r"([a-z0-9])([A-Z])", lambda m: m.group(1) + "_" + m.group(2).lower(), n)
    n = re.sub(r"(?<=[A-Za-z0-9'])-(?=[A-Za-z0-9])", "_", n)
    return n


def candidate(n):
    return re.match(r"[a-z]", n) and (re.search(r"[a-z0-9][A-Z]", n) or re.search(r"[A-Za-z0-9']-[A-Za-z0-9]", n)) and "→" not in n


def files():
    out = []
    for pat in ("crates/*/specs/**/*.antt", "crates/*/proofs/**/*.antt", "crates/*/src/**/*.rt", "crates/*/must-fail/*.edit", "tools/edits/**/*.edit"):
        out += sorted(glob.glob(pat, recursive=True))
    return out


def code(line):
    """The line without its comment."""
    i = line.find("--")
    while i >= 0 and not (i == 0 or line[i - 1] in " \t"):
        i = line.find("--", i + 2)
    return line if i < 0 else line[:i]


def heads(text):
    got = set()
    for l in text.split("\n"):
        m = HEAD.match(code(l))
        if m and not re.match(r"\s*(use|let|in|elim|λ)\b", l):
            for n in m.group(1).split():
                got.add(n)
    return got


def main():
    dry = "--dry" in sys.argv
    all_files = files()
    texts = {f: open(f, encoding="utf-8").read() for f in all_files}
    crates = {f.split("/")[1] for f in all_files if f.startswith("crates/")}
    declared = {}
    for f in all_files:
        if f.endswith(".antt") and not re.search(r"/proofs/.+/Proof\.antt$", f):
            declared[f] = heads(texts[f])
        elif f.endswith("/Proof.antt"):
            declared[f] = set()
    names = set()
    for s in declared.values():
        names |= {n for n in s if candidate(n)}
    # what each file brings in from elsewhere than this repository
    foreign = {}
    aliases = {}
    for f, t in texts.items():
        fo = set()
        al = set()
        for m in re.finditer(r"(?m)^\s*(?:-- )?(?:old: |new: )?(?:ghost )?use (\S+?)\.\{([^}]*)\}", t):
            own = re.match(r"Rattle\.(\w+)(?:\.|$)", m.group(1))
            own = own and own.group(1) in crates
            for it in m.group(2).split(","):
                it = it.strip()
                if not own:
                    fo.add(it.split(" as ")[-1].strip())
        foreign[f] = fo
    # tokens of each file
    tokens = {f: collections.Counter(WORD.findall(t)) for f, t in texts.items()}
    # uses: in each file, which of the names stand there and are ours
    def ours(f):
        if f.endswith("/Proof.antt"):
            imported = set()
            for m in re.finditer(r"(?m)^\s*use Rattle\.(\w+)\.(?:specs|proofs)\S*?\.\{([^}]*)\}", texts[f]):
                if m.group(1) in crates:
                    imported |= {x.strip().split(" as ")[0].strip() for x in m.group(2).split(",")}
            local = {n for n in heads(texts[f]) if candidate(n) and not re.search(r"(?m)^\s*(?:pub )?(?:abbrev )?(?:pub )?" + re.escape(n) + r" : tie\.", texts[f]) and not n.endswith("-spec")}
            dotted = {n for n in names if not re.search(r"-", n)}
            return {n for n in tokens[f] if n in names and (n in imported or n in dotted)} | {n for n in tokens[f] if n in local}
        return {n for n in tokens[f] if n in names and n not in foreign[f]}
    names_all = set()
    for f, h in declared.items():
        names_all |= h
    use = {f: ours(f) for f in all_files}
    for f in all_files:
        if f.endswith("/Proof.antt"):
            names |= {n for n in use[f]}
    target = {n: snake(n) for n in names}

    def bare(f):
        """The words of a file that a name could be taken for: not what stands behind a dot, nor the path of a `use`."""
        t = texts[f]
        t = re.sub(r"(?m)^(\s*(?:old: |new: )?(?:ghost )?use )[^\s;{]+", r"\1", t)
        if f.endswith((".rt", ".edit")):
            t = "\n".join(l.split("//")[0] for l in t.split("\n"))
            # in the source only what a parameter, a variable or a field is called
            got = re.findall(r"(?:\blet (?:mut )?|[(,{]\s*(?:mut |pub |ghost )*)([a-z_][a-z_0-9]*)(?=\s*[:=,)]| in\b)", t) + re.findall(r"(?m)^\s*(?:pub |ghost )*([a-z_][a-z_0-9]*): ", t)
            got = [g for g in got if not re.search(r"use [^;]*[{,]\s*" + re.escape(g) + r"\b", t)]
            return set(got)
        t = "\n".join(code(l) for l in t.split("\n"))
        return {m.group(0) for m in WORD.finditer(t) if m.start() == 0 or t[m.start() - 1] != "."}

    bares = {f: bare(f) for f in all_files}
    lemma = set()
    for _ in range(6):
        again = False
        for f in all_files:
            by = collections.defaultdict(set)
            for n in use[f]:
                by[target[n]].add(n)
            for t, ns in by.items():
                there = t in bares[f] and t not in use[f]
                if len(ns) > 1:
                    for n in sorted(ns, key=lambda n: ("-" in n or "_" in n, n))[1:]:
                        if n not in lemma:
                            lemma.add(n)
                            again = True
                            print("gets _lem:", n, f, sorted(ns))
                elif there:
                    n = next(iter(ns))
                    if t in names_all and t not in foreign[f] and "-" not in n and f.endswith(".antt"):
                        # an own name of that spelling already: it gives way
                        if t not in lemma:
                            lemma.add(t)
                            again = True
                            print("gives way:", t, "to", n, f)
                    elif n not in lemma:
                        lemma.add(n)
                        again = True
                        print("gets _lem:", n, f, "beside", t)
        for n in lemma:
            target[n] = snake(n) + "_lem"
            for f in all_files:
                if n in tokens[f] and n in names_all and n not in foreign[f] and not f.endswith(".rt"):
                    use[f].add(n)
        if not again:
            break
    print(len(names), "names,", len(lemma), "with _lem")
    if dry:
        return
    n_files = 0
    capitals = {n for n in names if "-" not in n and re.search(r"[A-Z]", n) and n not in lemma}
    pages = sorted(glob.glob("*.md") + glob.glob("docs/*.md") + glob.glob("docs/landings/*.md") + glob.glob("*/README.md") + glob.glob("crates/*/README.md"))
    for f in all_files + pages:
        text = texts[f] if f in texts else open(f, encoding="utf-8").read()
        page = f not in texts
        u = capitals | {n for n in names if "-" in n} if page else use[f]

        def words(t, which):
            return WORD.sub(lambda m: target[m.group(0)] if m.group(0) in which else m.group(0), t)

        if page:
            t = re.sub(r"`([^`\n]*)`", lambda m: "`" + words(m.group(1), u) + "`", text)
        elif f.endswith(".edit"):
            t = words(text, u)
        else:
            mark = "//" if f.endswith(".rt") else "--"
            rows = []
            for l in text.split("\n"):
                c = l.split("//")[0] if mark == "//" else code(l)
                rows.append(words(c, u) + words(l[len(c):], u & capitals))
            t = "\n".join(rows)
        t = re.sub(r"\b([A-Z]\w*)·(cases|specs)\b", lambda m: m.group(1) + m.group(2).capitalize(), t)
        t = re.sub(r"\b([A-Z]\w*)·([a-z]\w*)", lambda m: m.group(1).lower() + "_" + m.group(2), t)
        if t != text:
            open(f, "w", encoding="utf-8").write(t)
            n_files += 1
    print(n_files, "files")


main()
