#!/usr/bin/env python3
"""Spells the repository's own definitions and lemmas as today's Rattle does: functions, fields, constructors and lemmas in snake case.

usage: tools/respell.py [FOLDER]      once, at the top of the repository, right after the toolchain's port.py

A name of camel case gets underscores everywhere. A dash of a declared name stays where it joins two names of definitions, as in `length-put`, and is an
underscore where it hangs a plain word on, as in `put_in`. Where two names would meet in a file, the lemma gets `_lem` behind it or keeps its dashes. What the generated statements name (`tie.`) stays.
Fields behind a dot are turned with their declaration. Names of Rust, strings and comments (but for names of camel case) stay. Writes what it did to
tools/respelled.tsv: the old name, the new one.
"""

import os
import re
import sys

NAME = r'[^\s(){}.;,@"«»:\[\]]+'
DECLARED = re.compile(rf"^ *((?:(?:pub|abbrev|unfoldable|pattern)\s+)*)({NAME})((?: \{{[^{{}}\n]*\}})*) :(?= |$)", re.M)
HEADED = re.compile(rf"^ *(?:pub )?(?:data|record) ({NAME})", re.M)
CONSTRUCTORS = re.compile(r"^(?:pub )?data [^\n]*where\n((?: +[^\n]*\n)+)", re.M)
TOKEN = re.compile(rf"(?<![^\s(){{}}.;,@\"«»:\[\]]){NAME}")
CAMEL = re.compile(r"[a-z0-9][A-Z]")
STD = re.compile(r"\buse Rattle\.std\.[^{;\n]*\{([^}]*)\}|\buse (?:mathlib|Prim|native|lib|borrow|cmra|denote|base)\.[^{;\n]*\{([^}]*)\}")
# Functions into Type: a fact is spelled as a type.
FACTS = {"isAccepted": "IsAccepted"}


def files(root, endings):
    for folder, inner, names in os.walk(root):
        inner[:] = sorted(d for d in inner if d not in ("out", "target", ".git"))
        for name in sorted(names):
            if name.endswith(endings):
                yield os.path.join(folder, name)


def snake(word):
    return re.sub(r"(?<=[a-z0-9])[A-Z]", lambda m: "_" + m[0].lower(), word)


def bare(text):
    """The text of an .antt file without comments and strings."""
    return re.sub(r'"(?:\\.|[^"\\\n])*"', " ", re.sub(r"--.*", "", text))


class Names:
    def __init__(self, root):
        self.texts = {p: bare(open(p, encoding="utf-8").read()) for p in files(os.path.join(root, "crates"), (".antt",))}
        self.declared, self.theirs, self.defined, self.made = set(), set(), set(), set()
        for path, text in self.texts.items():
            for m in STD.finditer(text):
                self.theirs.update(re.findall(NAME, m[1] or m[2] or ""))
            self.made.update(re.findall(rf"(?m)^(?:pub )?({NAME}) : (?:tie\.|\{{M : Type 1\}} → statement)", text))
            for marks, name, _ in DECLARED.findall(text):
                self.declared.add(name)
                if "abbrev" in marks or "unfoldable" in marks:
                    self.defined.add(name)
            self.defined.update(HEADED.findall(text))
            for m in CONSTRUCTORS.finditer(text):
                self.declared.update(re.findall(rf"(?m)^ +((?:{NAME} )+):", m[1]))
        self.words = {snake(n) for n in self.defined | self.theirs if "-" not in n}
        self.used = {p: self.unqualified(t) for p, t in self.texts.items()}
        self.where = {}
        for path, names in self.used.items():
            for name in names:
                self.where.setdefault(name, set()).add(path)

    @staticmethod
    def unqualified(text):
        """The names that stand behind no dot."""
        return {m[0] for m in TOKEN.finditer(text) if text[m.start() - 1 : m.start()] != "."}

    def spelled(self, name):
        parts = [snake(part) for part in name.split("-")]
        out = parts[0]
        for before, after in zip(parts, parts[1:]):
            out += ("-" if before in self.words and after in self.words else "_") + after
        return out

    def table(self):
        camel = {n for n in self.where if CAMEL.search(n.split("-")[0] if n[:1].isupper() else n) and n[0].islower()}
        mine = {n for n in self.declared | camel if n not in self.theirs and n not in self.made and not n.startswith("◌")}
        wanted = {n: FACTS.get(n) or self.spelled(n) for n in mine}
        wanted = {n: new for n, new in wanted.items() if new != n and (n[0].islower() or "-" in n)}
        wanted = {n: new for n, new in wanted.items() if not n[0].isupper()}
        table = {}
        # Definitions first: a lemma gives way.
        taken = {}
        order = sorted(wanted, key=lambda n: ("-" in n, n not in self.defined, n))
        for name in order:
            new = wanted[name]
            if "-" not in name and new in self.declared and new not in self.defined and self.is_free(new, new + "_lem", taken):
                # The toolchain's script had already spelled a lemma as this definition.
                table[name], table[new] = new, new + "_lem"
                taken[new], taken[new + "_lem"] = {name}, {new}
                continue
            for new in (wanted[name], wanted[name] + "_lem", self.dashed(name)):
                if new == name or self.is_free(name, new, taken):
                    break
            else:
                print(f"left: {name}")
                continue
            if new != name:
                table[name] = new
                taken.setdefault(new, set()).add(name)
        return table

    @staticmethod
    def dashed(name):
        return "-".join(snake(part) for part in name.split("-"))

    def is_free(self, name, new, taken):
        if new in taken or new in self.theirs:
            return False
        return not self.where.get(new)


def turned(text, table, with_comments):
    def word(m):
        # A name without dash and capital may be one of Rust behind a dot.
        behind = m.string[m.start() - 1 : m.start()] == "."
        plain = "-" not in m[0] and not CAMEL.search(m[0])
        return m[0] if behind and plain else table.get(m[0], m[0])

    out = []
    for line in text.split("\n"):
        at = line.find("--") if with_comments is not None else -1
        code, comment = (line, "") if at < 0 else (line[:at], line[at:])
        code = "".join(piece if i % 2 else TOKEN.sub(word, piece) for i, piece in enumerate(re.split(r'("(?:\\.|[^"\\])*")', code)))
        if comment:
            comment = TOKEN.sub(lambda m: table.get(m[0], m[0]) if CAMEL.search(m[0]) else m[0], comment)
            comment = re.sub(r"`([^`]+)`", lambda m: "`" + TOKEN.sub(word, m[1]) + "`", comment)
        out.append(code + comment)
    return "\n".join(out)


def turned_rust(text, table):
    """Ghost lines and clauses: a Rust name is never of camel case, nor has a dash."""
    table = {old: new for old, new in table.items() if "-" in old or CAMEL.search(old)}
    out = []
    for line in text.split("\n"):
        at = line.find("//")
        code, comment = (line, "") if at < 0 else (line[:at], line[at:])
        code = "".join(piece if i % 2 else TOKEN.sub(lambda m: table.get(m[0], m[0]), piece) for i, piece in enumerate(re.split(r'("(?:\\.|[^"\\])*")', code)))
        comment = TOKEN.sub(lambda m: table.get(m[0], m[0]) if CAMEL.search(m[0]) else m[0], comment)
        out.append(code + comment)
    return "\n".join(out)


def turned_page(text, table):
    """A page or a script: names of camel case, and what stands between back ticks or brackets."""
    table = {old: new for old, new in table.items() if "-" in old or CAMEL.search(old)}
    text = TOKEN.sub(lambda m: table.get(m[0], m[0]) if CAMEL.search(m[0]) else m[0], text)
    for left, right in (("`", "`"), (r"\[", r"\]")):
        text = re.sub(rf"{left}[^`\[\]\n]+{right}", lambda m: m[0][0] + TOKEN.sub(lambda w: table.get(w[0], w[0]), m[0][1:-1]) + m[0][-1], text)
    return text


def main():
    root = sys.argv[1] if len(sys.argv) > 1 else "."
    table = Names(root).table()
    for path in files(os.path.join(root, "crates"), (".antt", ".rt", ".edit")):
        old = open(path, encoding="utf-8").read()
        new = turned_rust(old, table) if path.endswith(".rt") else turned(old, table, None if path.endswith(".edit") else True)
        if new != old:
            open(path, "w", encoding="utf-8").write(new)
    for path in [*files(os.path.join(root, "docs"), (".md",)), *files(os.path.join(root, "tests"), ("",)), os.path.join(root, "README.md")]:
        old = open(path, encoding="utf-8", errors="surrogateescape").read()
        new = turned_page(old, table)
        if new != old:
            open(path, "w", encoding="utf-8", errors="surrogateescape").write(new)
    with open(os.path.join(root, "tools/respelled.tsv"), "w", encoding="utf-8") as f:
        f.writelines(f"{old}\t{new}\n" for old, new in sorted(table.items()))
    print(f"respelled {len(table)} names")


if __name__ == "__main__":
    main()
