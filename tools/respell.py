#!/usr/bin/env python3
"""Respells the definitions and lemmas of this repository: words in snake case, types and modules in camel case.

usage: python3 tools/respell.py [--dry]        at the top of the repository, once, after the kit's port.py

Declarations are read off specs/ and proofs/ (but for the proofs of functions, whose names are made by the checker). A part of a name in camel case
becomes snake case. A dash stays where it joins two names (of a definition, a field, a function or a word of the library), and is an underscore where
one side is a plain word. Types, modules, constructors and everything in src/ outside clauses keep their spelling. Comments and the text of must-fail
edits follow; so do code spans of README.md and docs/. Names that would fall together are printed, and keep an underscore at their end.
"""

import glob
import os
import re
import sys
import collections

TOKEN = re.compile(r"[^\s(){}\[\].;,@\"«»`:|=λ]+|λ")
DECL = re.compile(r"^(\s*)((?:(?:abbrev|unfoldable|pub|infixl?r? \d+) )*)(data |record |ruleset )?([^\s(){}.;,@\"«»:λ]+)((?: [^\n:=]*)?) : ", re.M)
SKIP = {"--", "let", "in", "module", "use", "→", "∷", "×", "where", "elim", "_"}


def antt_files():
    for f in sorted(glob.glob("crates/*/specs/**/*.antt", recursive=True) + glob.glob("crates/*/proofs/**/*.antt", recursive=True)):
        yield f


def is_function_proof(f):
    return os.path.basename(f) == "Proof.antt"


def snake(part):
    if not part or not part[0].islower():
        return part
    part = part.replace("getD", "get_or")
    part = re.sub(r"([a-z0-9])([A-Z]+)(?=[A-Z][a-z])", r"\1_\2", part)
    part = re.sub(r"([a-z0-9])([A-Z])", r"\1_\2", part)
    return part.lower()


def declarations():
    """name -> files that declare it, for names that are no type; and the names of types."""
    names, types, fields = collections.defaultdict(set), set(), set()
    for f in antt_files():
        if is_function_proof(f):
            continue
        text = re.sub(r"(?<![^\s])--[^\n]*", "", open(f, encoding="utf-8").read())
        lines = text.split("\n")
        for m in DECL.finditer(text):
            name = m.group(4)
            if name in SKIP or not re.match(r"[^\W\d_]", name):
                continue
            if m.group(3) and m.group(3).strip() in ("data", "record"):
                types.add(name)
                continue
            if name[0].isupper():
                types.add(name)
                continue
            names[name].add(f)
    return names, types


def library_words():
    """Words that some line imports from a library: spelled as the library does."""
    words = set()
    for f in antt_files():
        for m in re.finditer(r"^\s*(?:pub )?use (?!Rattle\.(?!std))[\w.'-]+\.\{([^}]*)\}", open(f, encoding="utf-8").read(), re.M):
            for w in m.group(1).split(","):
                words.add(w.split(" as ")[0].strip())
    return words


def function_words():
    words = set()
    for f in glob.glob("crates/*/src/**/*.rt", recursive=True):
        text = open(f, encoding="utf-8").read()
        words |= set(re.findall(r"\bfn (\w+)", text))
        words |= set(re.findall(r"^\s+(?:pub )?(\w+): ", text, re.M))
    return words


def table():
    names, types = declarations()
    library = library_words()
    known = {snake(n) for n in names if "-" not in n} | types | {w for w in library if "-" not in w} | function_words()
    rows = {}
    for n in sorted(names):
        if n in library:
            continue
        parts = [snake(p) for p in n.split("-")]
        new = parts[0]
        for i in range(1, len(parts)):
            joined = parts[i - 1] in known and parts[i] in known
            new += ("-" if joined else "_") + parts[i]
        if new != n:
            rows[n] = new
    return rows, names, library


def mended(rows, names, library):
    """Where a name and what another becomes stand in one file, the lemma's gets `_lem` at its end."""
    olds = collections.defaultdict(set)
    for old, new in rows.items():
        olds[new].add(old)
    places = collections.defaultdict(set)
    for f in list(antt_files()) + glob.glob("crates/*/src/**/*.rt", recursive=True):
        text = re.sub(r"(?<![^\s])--[^\n]*", "", open(f, encoding="utf-8").read())
        if f.endswith(".rt"):
            # a parameter hides a word of its name in clauses; a function, a field or a local does not
            text = " ".join(w for group in re.findall(r"\bfn \w+(?:<[^>]*>)?\(([^)]*)\)", text) for w in re.findall(r"(\w+):", group)) + " " + " ".join(re.findall(r"[a-z]\w*[A-Z]\w*", text))
        for m in TOKEN.finditer(text):
            w = m.group(0)
            if (w in rows or w in olds) and not (m.start() and text[m.start() - 1] == "."):
                places[w].add(f)
    out, said = dict(rows), []
    for new, group in sorted(olds.items()):
        group = group | ({new} if places[new] else set())
        together = set()
        for a in group:
            for b in group:
                if a < b and places[a] & places[b]:
                    together |= {a, b}
        if new in library and new not in together:
            together |= set(g for g in group if g != new) if any(places[g] & places[new] for g in group if g != new) else set()
        if not together:
            continue
        # the definition keeps the plain word: of those in camel case with no dash, or the one that is spelled so already
        movers = sorted(g for g in together if g != new and "-" in g) or [new]
        for g in movers:
            out[g] = new + "_lem"
        said.append((new, sorted(together), movers, [sorted(places[g])[:3] for g in sorted(together)]))
    return out, said


def turn(text, rows, own, dashes):
    """Tokens of code by the table; in comments and after a dot only names in camel case."""

    def one(m):
        w = m.group(0)
        if w in own or w not in rows:
            return w
        if not re.search(r"[a-z][A-Z]", w):
            if not dashes:
                return w
            if m.start() > 0 and m.string[m.start() - 1] == "." and not re.search(r"[A-Z][\w']*\.$", m.string[: m.start()]):
                return w
        return rows[w]

    def line(l):
        cut = re.search(r"(?:^|(?<=\s))--(?=\s|$)", l)
        code, rest = (l[: cut.start()], l[cut.start() :]) if cut else (l, "")
        code = TOKEN.sub(one, code)
        rest = TOKEN.sub(lambda m: rows[m.group(0)] if m.group(0) in rows and re.search(r"[a-z][A-Z]", m.group(0)) else m.group(0), rest)
        return code + rest

    return "\n".join(line(l) for l in text.split("\n"))


def main():
    dry = "--dry" in sys.argv
    rows, names, library = table()
    rows, said = mended(rows, names, library)
    if dry:
        for s in said:
            print("clash:", s)
        print(len(rows), "names")
        return
    for f in antt_files():
        text = open(f, encoding="utf-8").read()
        own = set()
        if is_function_proof(f):
            own = {m.group(4) for m in DECL.finditer(text)}
        new = turn(text, rows, own, True)
        if new != text:
            open(f, "w", encoding="utf-8").write(new)
    camel = {k: v for k, v in rows.items() if re.search(r"[a-z][A-Z]", k)}
    for f in glob.glob("crates/*/src/**/*.rt", recursive=True) + glob.glob("crates/*/must-fail/*.edit"):
        text = open(f, encoding="utf-8").read()
        new = turn(text, camel, set(), False)
        if new != text:
            open(f, "w", encoding="utf-8").write(new)
    for f in ["README.md"] + glob.glob("docs/**/*.md", recursive=True):
        text = open(f, encoding="utf-8").read()
        new = re.sub(r"`[^`\n]+`", lambda m: TOKEN.sub(lambda t: rows.get(t.group(0), t.group(0)), m.group(0)), text)
        if new != text:
            open(f, "w", encoding="utf-8").write(new)


main()
