#!/usr/bin/env python3
"""Brings the must-fail edits to the text of today, and says which don't fit.

usage: python3 tools/turn_edits.py check               at the top: each edit whose pairs don't apply in order, each `old:` text standing exactly once
       python3 tools/turn_edits.py show OLD [EDIT..]   the lines that an edit makes, beside those that it made in the folder OLD of an older commit
       python3 tools/turn_edits.py turn OLD            turns the edits that don't fit, by words that the files of OLD and of today have at one place
"""

import collections
import difflib
import glob
import os
import re
import sys

TOKEN = re.compile(r"[A-Za-z_0-9](?:[\w'′]|-(?=[A-Za-z0-9]))*|[^\w\s]|[^\s]")
PLAIN = re.compile(r"\w+|[^\w\s]")


def edits(root="."):
    return sorted(os.path.relpath(f, root) for f in glob.glob(f"{root}/crates/*/must-fail/*.edit"))


def read(path):
    with open(path, encoding="utf-8") as it:
        return it.read()


def pairs(text):
    """The file and the pairs of an edit."""
    path, old, out = "", None, []
    for line in text.split("\n"):
        if line.startswith("file: "):
            path = line[6:].strip()
        elif line.startswith("old: "):
            old = line[5:]
        elif line.startswith("new:"):
            out.append((path, old, line[4:].removeprefix(" ")))
    return out


def applied(root, edit):
    """The texts before and after, by path, and the first pair that doesn't apply."""
    folder = os.path.dirname(os.path.dirname(f"{root}/{edit}"))
    was, now = {}, {}
    for path, old, new in pairs(read(f"{root}/{edit}")):
        if path not in now:
            if not os.path.exists(f"{folder}/{path}"):
                return was, now, f"no file {path}"
            was[path] = now[path] = read(f"{folder}/{path}")
        n = now[path].count(old)
        if n != 1:
            return was, now, f"{n} times in {path}: {old}"
        now[path] = now[path].replace(old, new)
    return was, now, None


def changed(was, now):
    """The lines that go and come."""
    out = []
    for path in now:
        a, b = was[path].split("\n"), now[path].split("\n")
        for tag, i, j, k, l in difflib.SequenceMatcher(None, a, b, autojunk=False).get_opcodes():
            if tag != "equal":
                out += ["- " + x for x in a[i:j]] + ["+ " + x for x in b[k:l]]
    return out


def snake(word):
    word = re.sub(r"([a-z0-9])([A-Z]+)(?=[A-Z][a-z])", r"\1_\2", word)
    return re.sub(r"([a-z0-9])([A-Z])", r"\1_\2", word).lower().replace("-", "_").replace("′", "'")


def spans(path, text):
    return [(m.group(0), m.start(), m.end()) for m in (TOKEN if path.endswith(".antt") else PLAIN).finditer(text)]


def learned(root, old_root):
    """What a word became: the commonest word that stands at its place, by the files that edits name."""
    votes = collections.defaultdict(collections.Counter)
    for edit in edits(old_root):
        crate = os.path.dirname(os.path.dirname(edit))
        for path in {p for p, _, _ in pairs(read(f"{old_root}/{edit}"))}:
            if not path.endswith(".antt"):
                continue
            a = [t for t, _, _ in spans(path, read(f"{old_root}/{crate}/{path}"))]
            b = [t for t, _, _ in spans(path, read(f"{root}/{crate}/{path}"))]
            s = difflib.SequenceMatcher(None, [snake(x) for x in a], [snake(x) for x in b], autojunk=False)
            for tag, i, j, k, l in s.get_opcodes():
                if tag == "equal" or tag == "replace" and j - i == l - k:
                    for x, y in zip(a[i:j], b[k:l]):
                        if re.match(r"\w", x) and re.match(r"\w", y) and x != "lib":
                            votes[x][y] += 1
    return {w: c.most_common(1)[0][0] for w, c in votes.items()}


def projected(text):
    """`f x .a .b` as `(f x).a.b`: the head of a projection is the application that stands before it."""
    while True:
        m = re.search(r" \.(?=[a-z])", text)
        if not m:
            return text
        head = text[: m.start()]
        # go back over the words and groups of the application
        at, words = len(head), 0
        while at > 0:
            if head[at - 1] in ")]":
                depth, i = 0, at
                while i > 0:
                    i -= 1
                    depth += head[i] in ")]"
                    depth -= head[i] in "(["
                    if depth == 0:
                        break
                at = i
            else:
                w = re.search(r"[\w'.-]+$", head[:at])
                if not w:
                    break
                at = w.start()
            # a projection is tight, a further word stands behind a space
            if at > 0 and head[at - 1] == ".":
                at -= 1
                continue
            words += 1
            if at > 1 and head[at - 1] == " " and re.match(r"[\w')\]]", head[at - 2]) and not re.search(r"\b(in|let)$", head[: at - 1]):
                at -= 1
                continue
            break
        body = head[at:]
        if words > 1:
            body = f"({body})"
        text = head[:at] + body + text[m.start() + 1 :]


def turned(path, text, table):
    if not path.endswith(".antt"):
        return text
    out, at = "", 0
    for word, i, j in spans(path, text):
        out += text[at:i] + table.get(word, snake(word) if re.match(r"[a-z]\w*[A-Z]", word) else word)
        at = j
    return re.sub(r"\((\w+(?:\.[a-z]\w*)+)\)", r"\1", projected(out + text[at:]))


def main():
    if sys.argv[1:2] == ["check"]:
        bad = 0
        for edit in edits():
            was, now, why = applied(".", edit)
            if not why and was == now:
                why = "changes nothing"
            if why:
                bad += 1
                print(f"{edit}: {why}")
        print(f"{len(edits())} edits, {bad} of them don't fit")
        return 1 if bad else 0
    old_root = sys.argv[2]
    if sys.argv[1] == "show":
        for edit in sys.argv[3:] or edits():
            print(f"== {edit}")
            was, now, why = applied(old_root, edit)
            print("\n".join("old " + x for x in changed(was, now)))
            was, now, why = applied(".", edit)
            print(why or "\n".join("    " + x for x in changed(was, now)))
        return 0
    if sys.argv[1] == "turn":
        table = learned(".", old_root)
        for edit in edits():
            text = read(edit)
            path, lines = "", []
            for line in text.split("\n"):
                if line.startswith("file: "):
                    path = line[6:].strip()
                m = re.match(r"(old: |new: )(.*)$", line)
                lines.append(m.group(1) + turned(path, m.group(2), table) if m else line)
            with open(edit, "w", encoding="utf-8") as it:
                it.write("\n".join(lines))
            if applied(".", edit)[2]:
                print("left:", edit, applied(".", edit)[2])
                with open(edit, "w", encoding="utf-8") as it:
                    it.write(text)
        return 0
    print(__doc__)
    return 1


sys.exit(main())
