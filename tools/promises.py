#!/usr/bin/env python3
"""Checks that every name in docs/PROMISES.md is in the tree, and prints those that are not; exit 1 where there is one. The forms, in backquotes:
`crate/specs/File.name` and `crate/proofs/File.name` (a definition, record, field, case or law), `crate::function` and `crate::module::function`,
paths. `--pub` lists every `pub fn` of every crate by what its `ensures` says of the outcome: an equation, a relation with a law in
proofs/Only.antt, or neither; an export by the law in proofs/Only.antt that has its name. It reads texts and proves nothing. Python 3.9 or newer, run anywhere in the repository."""
import os
import re
import sys

ROOT = os.path.dirname(os.path.dirname(os.path.abspath(__file__)))
PAGE = "docs/PROMISES.md"


def read(path):
    with open(os.path.join(ROOT, path), encoding="utf-8") as f:
        return f.read()


def crates():
    return re.findall(r"^(\w+)[^:#\n]*:", read("crates.txt"), re.M)


def sources(crate):
    """(module, path) of each source; the root module is ''."""
    folder = os.path.join(ROOT, "crates", crate, "src")
    found = []
    for at, _, files in sorted(os.walk(folder)):
        for name in sorted(f for f in files if f.endswith(".rt")):
            module = os.path.relpath(os.path.join(at, name), folder)[:-3].replace(os.sep, "::")
            found.append(("" if module in ("lib", "main") else module, os.path.relpath(os.path.join(at, name), ROOT)))
    return found


# ---- the names of the page


def declared(path):
    """Every name that an .antt file declares: laws and definitions, records, cases, fields."""
    names = set()
    for line in read(path).split("\n"):
        m = re.match(r"\s*(?:(?:unfoldable|abbrev|pub|record|data)\s+)*([^\s:(){}]+)(\s+:(?:\s|$)|\s+[({])?", line)
        if m and (m.group(2) and ":" in m.group(2) or re.match(r"\s*(?:pub\s+)?(?:record|data)\s", line)):
            names.add(m.group(1))
    return names


def functions(path):
    return set(re.findall(r'^\s*(?:pub(?:\(crate\))? )?(?:extern "C" )?fn (\w+)', read(path), re.M))


def complaint(name, listed):
    """What is wrong with a name, or None."""
    m = re.match(r"(\w+)/(specs|proofs)/(\w+)\.(\S+)$", name)
    if m:
        crate, folder, module, what = m.groups()
        path = "crates/%s/%s/%s.antt" % (crate, folder, module)
        if crate not in listed:
            return "no crate %s" % crate
        if not os.path.exists(os.path.join(ROOT, path)):
            return "no file %s" % path
        return None if what in declared(path) else "%s declares no %s" % (path, what)
    if re.match(r"[a-z]\w*(::\w+)+$", name):
        crate, *modules, what = name.split("::")
        if crate not in listed:
            return "no crate %s" % crate
        paths = [p for module, p in sources(crate) if module == "::".join(modules)]
        if not paths:
            return "no module %s" % "::".join([crate] + modules)
        return None if any(what in functions(p) for p in paths) else "%s has no function %s" % (paths[0], what)
    if re.match(r"[.\w-]+(/[.\w-]+)*/?$", name):
        return None if os.path.exists(os.path.join(ROOT, name)) else "no such file or folder"
    return "no form of a name"


def check():
    listed = crates()
    count, bad = 0, 0
    for at, line in enumerate(read(PAGE).split("\n"), 1):
        for name in re.findall(r"`([^`]+)`", line):
            # other words in backquotes are the papers' or the language's; of a command its first word is a path
            if "/" in name or "::" in name:
                count += 1
                why = complaint(name.split()[0], listed)
                if why:
                    bad += 1
                    print("%s:%d: `%s`: %s" % (PAGE, at, name, why))
    print("promises.py: %d names, %d missing" % (count, bad))
    return 1 if bad else 0


# ---- the public functions


def heads(text):
    """The head of each `pub fn`, up to its body."""
    lines = text.split("\n")
    for at, line in enumerate(lines):
        if re.match(r'\s*pub (?:extern "C" )?fn ', line):
            end = at
            while not (lines[end].strip() == "{" or lines[end].endswith("{") and not lines[end].lstrip().startswith(("ensures", "requires"))):
                end += 1
            yield "\n".join(lines[at : end + 1])


def parts(text, mark):
    """The text cut at each mark that stands in no bracket."""
    found, depth, last = [], 0, 0
    for at, c in enumerate(text):
        depth += (c in "({") - (c in ")}")
        if depth == 0 and text.startswith(mark, at):
            found.append(text[last:at])
            last = at + len(mark)
    return [p.strip() for p in found + [text[last:]]]


def bare(text):
    """Without brackets round the whole."""
    text = text.strip()
    while text.startswith("(") and closes(text) == len(text) - 1:
        text = text[1:-1].strip()
    return text


def closes(text):
    depth = 0
    for at, c in enumerate(text):
        depth += (c in "({") - (c in ")}")
        if depth == 0:
            return at
    return -1


class Crates:
    """Definitions and laws of the tree, read when asked for."""

    def __init__(self):
        self.texts = {}

    def text(self, path):
        if path not in self.texts:
            self.texts[path] = read(path) if os.path.exists(os.path.join(ROOT, path)) else ""
        return self.texts[path]

    def home(self, source, crate, word):
        """The crate and the file of specs/ that a word of a source, or of a file of specs/, comes from."""
        alias, _, name = word.rpartition(".")
        for line in re.findall(r"^(?:ghost )?use (Rattle\..*?);?$", source, re.M):
            m = re.match(r"Rattle\.(\w+)\.specs\.(\w+)(?:\.\{(.*)\}| as (\S+))?$", line)
            if not m:
                continue
            if alias and m.group(4) == alias or not alias and m.group(3) and name in re.findall(r"[^\s,]+", m.group(3)):
                return m.group(1), m.group(2), name
        return crate, None, name

    def definition(self, crate, module, name):
        """The declaration of a name in specs/, up to the next empty line."""
        text = self.text("crates/%s/specs/%s.antt" % (crate, module))
        m = re.search(r"^(?:(?:unfoldable|abbrev|pub) )*(?:record )?%s .*?(?:\n\n|\Z)" % re.escape(name), text, re.M | re.S)
        return m.group(0) if m else ""

    def laws(self, crate, name):
        """The laws of a crate's proofs/Only.antt whose statement, with the parameters of the modules round it, names `name`."""
        found, round_it = [], []
        lines = self.text("crates/%s/proofs/Only.antt" % crate).split("\n")
        for at, line in enumerate(lines):
            indent = len(line) - len(line.lstrip())
            if not line.strip() or line.startswith("use "):
                continue
            round_it = [(i, t) for i, t in round_it if i < indent]
            end = at + 1
            while end < len(lines) and len(lines[end]) - len(lines[end].lstrip()) > indent and not lines[end - 1].endswith(" where"):
                end += 1
            said = "\n".join(lines[at:end])
            if line.lstrip().startswith("module "):
                round_it.append((indent, said))
            m = re.match(r"\s*pub (\S+) :", line)
            if m and re.search(r"(?<![\w-])%s(?![\w-])" % re.escape(name), said + "".join(t for _, t in round_it)):
                found.append("%s/proofs/Only.%s" % (crate, m.group(1)))
        return found

    def fields(self, crate, name):
        """The fields of a struct, its own crate's first."""
        for c in [crate] + crates():
            for _, path in sources(c):
                m = re.search(r"pub struct %s \{(.*?)\n\}" % re.escape(name), self.text(path), re.S)
                if m:
                    return set(re.findall(r"^\s*pub (\w+):", m.group(1), re.M))
        return set()


class Function:
    def __init__(self, tree, crate, module, source, head):
        self.tree, self.crate, self.module, self.source = tree, crate, module, source
        self.name = re.search(r"fn (\w+)", head).group(1)
        signature = re.split(r"\n\s*(?:ensures|requires)\b", head)[0].rstrip(" {\n")
        self.lent = [n for n, _ in re.findall(r"(\w+): &('\w+ )?mut ", signature)]
        m = re.search(r"\) -> (.+)$", signature, re.S)
        self.result = m.group(1).strip() if m else None
        self.requires = re.search(r"\n\s*requires\b", head)
        self.ensures = re.findall(r"^\s*ensures (?:\w+ )?\{ (.*) \}$", head, re.M)
        self.by = {}
        self.exported = 'extern "C"' in head

    def outcome(self):
        return (["result"] if self.result else []) + self.lent

    def part(self, text):
        """Which part of the outcome a term is: the result, a field of it, or a lent memory at exit."""
        text = bare(text)
        if re.match(r"\w+\.new$", text):
            return text[: -len(".new")]
        return "result" if text in ("result", "result.now") else text if re.match(r"result\.\w+$", text) else None

    def note(self, part, how):
        if part:
            self.by.setdefault(part, how)

    def terms(self, text):
        """A name and what it is given."""
        found, at = [], 0
        while at < len(text):
            if text[at] == " ":
                at += 1
            elif text[at] in "({":
                end = at + closes(text[at:])
                found.append(text[at : end + 1])
                at = end + 1
            else:
                m = re.match(r"[^\s(){}]+", text[at:])
                found.append(m.group(0))
                at += len(m.group(0))
        return found

    def equation(self, left, source=None):
        left = left.strip()
        if left.startswith("record {"):
            for field in left[len("record {") : -1].split(";"):
                self.equation(field.split(" = ", 1)[1], source)
            return
        pieces = parts(bare(left), ",") if left.startswith("(") else [left]
        if len(pieces) > 1 or self.part(left):
            for p in pieces:
                self.note(self.part(p), "equation")
            return
        name, *given = self.terms(bare(left))
        crate, module, word = self.tree.home(source or self.source, self.crate, name)
        said = self.tree.definition(crate, module, word)
        if "record {" in said:
            how = "equation for the record %s" % word
            if "seen" in said:
                how += ", whose answer is told by " + ", ".join("answer/proofs/Only." + law for law in sorted(set(seen_laws(said))))
            for g in given:
                self.note(self.part(g), how)

    def relation(self, text):
        name, *given = self.terms(text)
        crate, module, word = self.tree.home(self.source, self.crate, name)
        laws = self.tree.laws(crate, word)
        if laws:
            for g in given:
                self.note(self.part(g), "law " + laws[0])
            return
        said = self.tree.definition(crate, module, word)
        m = re.search(r"^%s ([^=]*) = ([^×→]*?) ≡ [^×→]*$" % re.escape(word), said, re.M)
        if m:  # a name for an equation: its left side with what the name is given
            values = dict(zip(m.group(1).split(), given))
            left = " ".join(values.get(t, t) for t in self.terms(m.group(2)))
            self.equation(left, self.tree.text("crates/%s/specs/%s.antt" % (crate, module)))
            return
        if re.match(r"pub record ", said):
            held = re.findall(r"[({]([^:(){}]+) :", said.split(" where")[0])
            names = [n for group in held for n in group.split()]
            implicit = len(re.findall(r"\{", said.split(" where")[0]))
            equal = set(re.findall(r"^\s+pub \S+ : (\w+) ≡ ", said, re.M))
            for n, g in zip(names[implicit:], given):
                if n in equal:
                    self.note(self.part(g), "fields of %s" % word)

    def verdict(self):
        if self.exported:
            law = self.name + "_only"
            told = re.search(r"^pub %s : OneOutcome " % law, self.tree.text("crates/%s/proofs/Only.antt" % self.crate), re.M)
            return "law %s/proofs/Only.%s" % (self.crate, law) if told else "neither: no law " + law
        for text in self.ensures:
            for said in parts(bare(text), " × "):
                said = bare(said)
                sides = parts(said, " ≡ ")
                if len(sides) > 1:
                    # by entry values alone
                    if not re.search(r"\.new\b|\bresult\b", sides[1]):
                        self.equation(sides[0])
                elif not re.search(r" [≤<] ", said) or said[0].isupper():
                    self.relation(said)
        fields = {p.split(".")[1] for p in self.by if p.startswith("result.")}
        if self.result and "result" not in self.by and fields and fields >= self.tree.fields(self.crate, self.result.split("::")[-1]):
            self.by["result"] = "equation for each field" if self.by["result." + min(fields)] == "equation" else self.by["result." + min(fields)]
        if not self.ensures:
            return "neither: no ensures" + ("" if self.outcome() else ", no result and nothing lent")
        left = [p for p in self.outcome() if p not in self.by]
        if left:
            return "neither: " + ", ".join(left)
        ways = list(dict.fromkeys(self.by[p] for p in self.outcome()))
        return "; ".join(ways) if ways else "neither: says nothing of an outcome"


# what is seen of an answer, and the law of answer/proofs/Only.antt that this tells the answer
SEEN = {"seen": "seen_only"}


def seen_laws(said):
    return [SEEN[n] for n in re.findall(r"\bseen\w*", said) if n in SEEN]


def public():
    tree, count = Crates(), {}
    for crate in crates():
        for module, path in sources(crate):
            source = tree.text(path)
            for head in heads(source):
                f = Function(tree, crate, module, source, head)
                said = f.verdict()
                kind = "neither" if said.startswith("neither") else "law" if "law " in said else "equation"
                count[kind] = count.get(kind, 0) + 1
                print("%s | %s | %s | %s" % (crate, module or "-", f.name, said + ("; has a requires" if f.requires else "")))
    print("promises.py: %d pub fn; %s" % (sum(count.values()), ", ".join("%s %d" % (k, count[k]) for k in sorted(count))))
    return 0


if __name__ == "__main__":
    if sys.argv[1:] not in ([], ["--pub"]):
        sys.exit("promises.py: no argument, or --pub")
    sys.exit(public() if sys.argv[1:] else check())
