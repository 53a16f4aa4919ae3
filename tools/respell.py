#!/usr/bin/env python3
"""Spells the definitions and lemmas of this repository as today's Rattle does, once, right behind port.py: `python3 tools/respell.py` at the top.

Words are in snake case: `wordAt` is `word_at`, and a plain word is added with `_`: `not-laid` is `not_laid`. A dash stays where it joins two names,
as in `length-filled`. Types, facts and modules keep their capital. A lemma that would meet another name gets `_lem`, as `all-fit` beside
`all_fit` is `all_fit_lem`. Functions of src/, exported names, strings, inputs and outputs keep their names: only what the files of specs/ and
proofs/ declare is turned, there, in clauses, in must-fail edits and in code spans of documents. A name that a file takes from a library stays.
`--list` writes the table and what met, and turns nothing.
"""

import collections
import os
import re
import sys

WORD = re.compile(r"[^\s(){}.;,@\"«»]+")
DECLARED = re.compile(r"^( *)((?:pub |abbrev |unfoldable |private |instance )*)([^\s(){}.;,@\"«»:=|]+)((?: *\{[^{}\n]*\}| *\([^()\n]*\))*) : *(.*)$", re.M)
CLAUSED = re.compile(r"^ *(?:pub |abbrev )*(?:record|data) (\S+)", re.M)
USE = re.compile(r"^\s*(?:pub )?(?:ghost )?use ([^\s;{]+?)(?:\.\{([^}]*)\})?;?\s*$", re.M)
NAME = re.compile(r"^[A-Za-z_][A-Za-z0-9_'₀-₉-]*$")
OWN = re.compile(r"^Rattle\.(\w+)\.")
LIBRARY = {"length", "take", "drop", "map", "replicate", "some", "none", "get_or", "append", "eqb", "leb", "reverse", "sum", "suc", "zero", "cond"}
GENERATED = re.compile(r"(?:tie|goal|given|shape|t)[\w-]*\.(?:Need|Inv|Measure|invariant|decreases)")


def read(path):
    with open(path, encoding="utf-8") as f:
        return f.read()


def files(root, endings, within=("crates",)):
    for top in within:
        if os.path.isfile(os.path.join(root, top)):
            yield os.path.join(root, top)
        for folder, dirs, names in os.walk(os.path.join(root, top)):
            dirs[:] = sorted(d for d in dirs if d not in ("out", ".git", "target"))
            for name in sorted(names):
                if name.endswith(endings):
                    yield os.path.join(folder, name)


def crates(root):
    return set(os.listdir(os.path.join(root, "crates")))


def foreign(text, own):
    """The names that a file takes from a library."""
    taken = set()
    for m in USE.finditer(text):
        path, names = m[1], m[2]
        at = OWN.match(path)
        if at and at[1] in own:
            continue
        for name in (names or path.rsplit(".", 1)[-1]).split(","):
            name = name.strip()
            if " as " in name:
                name = name.split(" as ")[1].strip()
            if name:
                taken.add(name)
    return taken


def uncapped(part):
    """One part of a name in snake case; a capital at its head is a type's or a fact's, and stays."""
    if part[:1].isupper():
        return part
    out = re.sub(r"(?<=[a-z0-9₀-₉'])([A-Z])", r"_\1", part)
    out = re.sub(r"(?<=[A-Z])([A-Z])(?=[a-z])", r"_\1", out)
    return out.lower() if out != part else part


def spelled(name, known):
    parts = [uncapped(p.replace("getD", "get_or")) for p in name.split("-")]
    if parts[-1] == "spec":
        return "_".join(parts)
    out = parts[0]
    for i in range(1, len(parts)):
        left = {parts[i - 1], "_".join(parts[:i])}
        right = {parts[i], "_".join(parts[i:])}
        joins = bool(left & known) and bool(right & known)
        capital = parts[i - 1][:1].isupper() or parts[i][:1].isupper()
        out += ("-" if joins or capital else "_") + parts[i]
    return out


def table(root):
    """The rows (old, new), what met, and the crates."""
    own = crates(root)
    names, tops, taken, words = set(), set(), set(), {}
    defined = set()
    for path in files(root, (".antt", ".rt")):
        text = read(path)
        words[path] = {m[0] for m in WORD.finditer(text) if text[m.start() - 1 : m.start()] != "."}
        if path.endswith(".rt"):  # parameters, fields and locals, which a word of a clause must not meet
            words[path] = {w for w in words[path] if "-" in w or re.search("[a-z][A-Z]", w)} | set(re.findall(r"(?<![\w:])(\w+)\s*:(?!:)", text)) | set(re.findall(r"\blet (?:mut )?(\w+)", text))
        if path.endswith(".rt") or ("/specs/" not in path and "/proofs/" not in path):
            continue
        taken |= foreign(text, own)
        for m in DECLARED.finditer(text):
            name, kind = m[3], m[5]
            if not NAME.match(name) or "/+" in path or GENERATED.match(kind) or name in ("let", "in", "where"):
                continue
            names.add(name)
            if "abbrev" in m[2] or "unfoldable" in m[2]:
                defined.add(name)
            if "/specs/" in path and len(m[1]) <= 2 and ("abbrev" in m[2] or "unfoldable" in m[2]):
                tops.add(name)
    known = {uncapped(n) for n in tops if "-" not in n} | LIBRARY & taken
    made = {name: spelled(name, known) for name in sorted(names)}
    made = {old: new for old, new in made.items() if new != old}
    holders = collections.defaultdict(set)
    for path, its in words.items():
        for word in its:
            if word in made or word in made.values():
                holders[word].add(path)
    rows, met = {}, []
    back = collections.defaultdict(list)
    for old, new in made.items():
        back[new].append(old)
    for new, olds in sorted(back.items()):
        olds.sort(key=lambda n: (n not in defined, "-" in n, n))
        for k, old in enumerate(olds):
            others = [o for o in olds[:k] if holders[o] & holders[old]]
            meets = {p for p in holders[old] & holders[new] if p.endswith(".antt")}
            if others or (meets and (old not in defined or new in taken)):
                rows[old] = new + "_lem"
                met.append((old, rows[old], others + sorted(meets)))
            else:
                rows[old] = new
                if meets:  # a definition takes the name, and the lemma that has it is named anew
                    rows[new] = new + "_lem"
                    met.append((new, rows[new], [old] + sorted(meets)))
                for p in holders[old] & holders[new]:
                    if p.endswith(".rt"):
                        met.append((old, new, ["look at " + p]))
    return rows, met, own


class Turn:
    def __init__(self, rows, own):
        self.rows, self.own = rows, own

    def code(self, text, kept):
        """Turns each word of the table; one that stands behind a library's path, or a library's type, stays."""

        def one(m):
            word = m[0]
            if word not in self.rows or word in kept:
                return word
            before = text[: m.start()]
            if before.endswith("."):
                if self.rows[word] == word + "_lem":
                    return word  # a label
                head = re.search(r"([^\s(){};,@\"«»]+)\.$", before)
                path = head[1] if head else ""
                top = OWN.match(path + ".")
                if path.split(".")[0] in ("mathlib", "lib", "native", "borrow", "Prim", "logic") or (path.startswith("Rattle.") and not (top and top[1] in self.own)):
                    return word
                if path[:1].isupper() and path.split(".")[0] in kept:
                    return word
            return self.rows[word]

        return WORD.sub(one, text)

    def antt(self, text):
        kept = foreign(text, self.own)
        out = []
        for line in text.split("\n"):
            at = re.search(r"(?<![^\s(){};,])--(?:\s|$)", line)
            body, comment = (line[: at.start()], line[at.start() :]) if at else (line, "")
            out.append(self.code(body, kept) + self.prose(comment))
        return "\n".join(out)

    def prose(self, text):
        """A camel-case word of the table, and any word of it in a code span."""
        text = re.sub(r"(`+)([^`\n]+)\1", lambda m: m[1] + self.code(m[2], set()) + m[1], text)
        return re.sub(r"(?<![\w'./-])[a-z][A-Za-z0-9₀-₉]*(?:-[A-Za-z0-9₀-₉]+)*(?![\w'/-])", lambda m: self.rows[m[0]] if m[0] in self.rows and re.search(r"[a-z][A-Z]", m[0]) else m[0], text)

    def rust(self, text):
        """Clauses and ghost items; outside them only a word that no Rust name can be."""
        kept = foreign(text, self.own)
        out = []
        for line in text.split("\n"):
            at = line.find("//")
            body, comment = (line[:at], line[at:]) if at >= 0 and '"' not in line[:at] else (line, "")
            out.append(self.code(body, kept | {w for w in self.rows if not re.search(r"[A-Z]|-", w)}) + self.prose(comment))
        return "\n".join(out)


def main(argv):
    root = os.getcwd()
    rows, met, own = table(root)
    if "--list" in argv:
        for old, new in sorted(rows.items()):
            print(f"{old}\t{new}")
        for old, new, others in met:
            print(f"met: {old} is {new}, for {' '.join(others)}")
        return 0
    turn, count = Turn(rows, own), 0
    for path in files(root, (".antt", ".rt", ".edit", ".md"), ("crates", "docs", "README.md")):
        text = read(path)
        if path.endswith(".antt"):
            new = turn.antt(text)
        elif path.endswith(".md"):
            new = turn.prose(text)
        else:
            new = turn.rust(text)
        if new != text:
            with open(path, "w", encoding="utf-8") as f:
                f.write(new)
            count += 1
    print(f"respell: {len(rows)} names, {count} files")
    return 0


if __name__ == "__main__":
    raise SystemExit(main(sys.argv[1:]))
