#!/usr/bin/env python3
"""Respells this repository's own definitions and lemmas: every word in snake case, where it was camel case or had dashes.

usage: tools/respell-names.py [FOLDER]     in a tree that port.py has just turned (PORTING.md of the kit); rewrites crates/ in place, once

Types, constructors and modules keep their capitals. Names of the kit, names that the kit makes (goals, loops, steps of a function's proof),
names of src/ and texts stay. It stops, with nothing written, where two names of one file would fall together.
"""

import os
import re
import sys

WORD = re.compile(r"[^\s(){}\[\],;.«»|`\"]+")
# Lemmas that would fall together with the definition that they speak of, or with a name of the kit, and a field that would with one of src/.
LEMMAS = """
all-in-column all-unlabelled better-alone better-move column-above entry-line far-together firsts-of fix-count fix-line fix-medians-of
fix-names has-time highest-from in-column in-grid-limit in-limit in-time-order in-turn is-nan label-in line-at line-of linked-pair
median-label medians-of mid-of of-bits off-grid place-labels places-in plain-fix-medians plain-medians root-units row-signs row-sizes
setting-names sighted-all spent-alone spent-at-rest strength-of time-at total-from two-at-one unlabelled-too-few without-empty
same_bits is_field each_from sumQ-from
""".split()
OWN = {"get_d_map": "get_or_map", "qExit": "q_sum"} | {n: n.replace("-", "_").replace("sumQ", "sum_q") + "_lem" for n in LEMMAS}
MADE = {"Tie", "Goals", "Given", "Lts", "Statement", "declared", "contracts", "TheConstants", "TheVariants"}


def snake(name):
    if name in OWN:
        return OWN[name]
    name = name.replace("getD", "get_or")
    if name[0].isdigit() or not re.search(r"[a-z0-9][A-Z]|[^\W_]-[^\W_]", name) or re.search(r"[^\w'-]", name):
        return name
    if not name[0].isupper():
        name = re.sub(r"(?<=[A-Za-z0-9])[A-Z](?=[a-z])|(?<=[a-z0-9])[A-Z]", lambda m: "_" + m.group(0).lower(), name).lower()
    return re.sub(r"(?<=[\w'])-(?=\w)", "_", name)


class Tree:
    def __init__(self, root):
        self.root = os.path.join(root, "crates")
        self.modules = set()
        self.fields = set()
        self.names = set()
        self.files = []
        self.edits = []
        for crate in sorted(os.listdir(self.root)):
            for kind in ("specs", "proofs", "src", "must-fail"):
                for folder, dirs, files in os.walk(os.path.join(self.root, crate, kind)):
                    dirs.sort()
                    for f in sorted(files):
                        path = os.path.join(folder, f)
                        inside = os.path.relpath(folder, os.path.join(self.root, crate, kind))
                        if kind == "must-fail" and f.endswith(".edit"):
                            self.edits.append((crate, path))
                        elif f.endswith((".rt", ".antt")):
                            self.files.append((crate, kind, inside, path))
                        if f.endswith(".antt") and inside == ".":
                            self.modules.add(f"Rattle.{crate}.{kind}.{f[:-5]}")
                            self.read_names(path)

    def read_names(self, path):
        """The definitions of a file, and the fields of its records."""
        record = None
        for line in open(path, encoding="utf-8"):
            m = re.match(r"(\s*)((?:pub |abbrev |unfoldable |package )*)(record |data )?([^\s:(){}]+)(.*)", line)
            if not m or line.strip().startswith("--"):
                continue
            depth = len(m.group(1))
            if m.group(3):
                record = depth if m.group(3) == "record " else None
                self.names.add(m.group(4))
            elif re.match(r"(?: [^=]*)? ?: ", m.group(5)):
                self.names.add(m.group(4))
                if record is not None and depth > record:
                    self.fields.add(m.group(4))
            if depth == 0 and not m.group(3) and line.strip():
                record = None

    def is_own(self, path):
        return path in self.modules and not MADE & set(path.split("."))


def imports(text, tree):
    """The names that a file takes from its own repository, and from elsewhere."""
    own, other = set(), set()
    for m in re.finditer(r"^(?:ghost )?use ([\w.'+«»-]+)\.\{([^}]*)\}", text, re.M):
        names = {n for item in m.group(2).split(",") for n in re.split(r"\s+as\s+", item.strip()) if n}
        (own if tree.is_own(m.group(1)) else other).update(names)
    return own, other


def split_line(line):
    """Code and comment of a line of antt."""
    m = re.search(r"(?:^|\s)--(?:\s|$)", line)
    return (line[: m.start()], line[m.start():]) if m else (line, "")


def turn_comment(text, tree):
    def one(m):
        w = m.group(0)
        quoted = text[m.start() - 1 : m.start()] == "`"
        camel = re.search(r"[a-z0-9][A-Z]", w)
        return snake(w) if w in tree.names and (quoted or camel) else w

    return WORD.sub(one, text)


def turn_antt(text, tree, inside, seen):
    own, other = imports(text, tree)
    kept = {m.group(1) for m in re.finditer(r"^(?:pub |abbrev )*([^\s:]+) : .*\btie\.", text, re.M)}
    modules = {m.group(2) for m in re.finditer(r"^use ([\w.'+]+) as ([\w-]+)$", text, re.M) if tree.is_own(m.group(1))}
    kept |= {m.group(1) for m in re.finditer(r"^pub ([^\s:]+-spec) :", text, re.M)} if inside != "." else set()
    out = []
    for line in text.split("\n"):
        code, comment = split_line(line)
        is_use = re.match(r"\s*(?:pub )?use ", code)

        def one(m):
            w = m.group(0)
            start = m.start()
            before = code[start - 1 : start]
            after = code[m.end() : m.end() + 1]
            if before == "«":
                return w
            owner = re.search(r"(?<![^\s(])([\w-]+)\.$", code[:start])
            if is_use and (before == "." or after == "."):
                return w
            if is_use:
                new = snake(w) if w in own or w in modules else w
            elif before == "." and owner and owner.group(1) in modules:
                new = snake(w)
            elif before == "." and re.match(r"[^\s(]", code[start - 2 : start - 1] or " "):
                new = snake(w) if w in tree.fields and (inside == "." or re.search(r"[a-z][A-Z]", w)) else w
            elif w in other and w not in own or w in kept:
                new = w
            else:
                new = snake(w)
            if before != "." or inside == ".":
                seen.setdefault(new, set()).add(w)
            return new

        out.append(WORD.sub(one, code) + turn_comment(comment, tree))
    return "\n".join(out)


def turn_rt(text, tree, own, seen):
    def one(m):
        w = m.group(0)
        before = m.string[m.start() - 1 : m.start()]
        new = snake(w) if w in own or (before == "." and w in tree.fields and re.search(r"[a-z][A-Z]", w)) else w
        if w in own:
            seen.setdefault(new, set()).add(w)
        return new

    return WORD.sub(one, text)


def turn_edit(text, tree, crate, root):
    m = re.search(r"^file: (\S+)", text, re.M)
    path = os.path.join(root, crate, m.group(1)) if m else ""
    source = open(path, encoding="utf-8").read() if os.path.exists(path) else ""
    own, other = imports(source, tree)
    out = []
    for line in text.split("\n"):
        k = re.match(r"(old|new): (.*)", line)
        if k and path.endswith(".antt"):
            line = k.group(1) + ": " + turn_antt(k.group(2), Marked(tree, other), ".", {})
        elif k:
            line = k.group(1) + ": " + turn_rt(k.group(2), tree, own, {})
        out.append(line)
    return "\n".join(out)


class Marked:
    """A tree whose names from elsewhere are those of the file that an edit changes."""

    def __init__(self, tree, other):
        self.names, self.fields = tree.names - other, tree.fields
        self.is_own = tree.is_own


def main(argv):
    root = argv[0] if argv else os.path.join(os.path.dirname(os.path.realpath(__file__)), "..")
    tree = Tree(root)
    new, bad = {}, []
    for crate, kind, inside, path in tree.files:
        text = open(path, encoding="utf-8").read()
        seen = {}
        if path.endswith(".antt"):
            new[path] = turn_antt(text, tree, inside, seen)
        else:
            new[path] = turn_rt(text, tree, imports(text, tree)[0], seen)
        bad += [f"{path}: {sorted(v)} would all be {k}" for k, v in seen.items() if len(v) > 1]
    for crate, path in tree.edits:
        text = open(path, encoding="utf-8").read()
        new[path] = turn_edit(text, tree, crate, tree.root)
    if bad:
        print("\n".join(bad))
        return 1
    n = 0
    for path, text in new.items():
        if text != open(path, encoding="utf-8").read():
            n += 1
            open(path, "w", encoding="utf-8").write(text)
    print(f"{n} files respelled")
    return 0


if __name__ == "__main__":
    raise SystemExit(main(sys.argv[1:]))
