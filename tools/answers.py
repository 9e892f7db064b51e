#!/usr/bin/env python3
"""Turns a function's Proof.antt that walks the code into Invariants.antt and Answers.antt.

usage: python3 tools/answers.py CRATE        at the top of the repository, with the crates below proved

`rt check --generated DIR --old-names` names each goal, step and place as it was and as it is; paths through `.before` become paths of the flat record.
"""

import glob
import json
import os
import re
import shutil
import subprocess
import sys
import tempfile

WORD = r"[^\s(){}\[\].;,@\"«»:|=]+"
KEEP = {"search rules"}


def norm(w):
    w = re.sub(r"_lem$", "", w)
    return w.replace("_", "-")


def split_tuple(text):
    """The parts of a text that is one tuple in parentheses, or None."""
    t = text.strip()
    if not (t.startswith("(") and t.endswith(")")):
        return None
    parts, depth, cur = [], 0, ""
    for i, ch in enumerate(t):
        if ch in "([{":
            depth += 1
            if depth == 1:
                continue
        elif ch in ")]}":
            depth -= 1
            if depth == 0:
                if i != len(t) - 1:
                    return None
                parts.append(cur)
                break
        if ch == "," and depth == 1:
            parts.append(cur)
            cur = ""
        else:
            cur += ch
    parts = [p.strip() for p in parts if p.strip()]
    return parts if len(parts) > 1 else None


def as_record(val, clauses):
    """A last tuple of as many parts as the goal has clauses, as a record of them."""
    # the place after the last `in` that stands outside parentheses
    depth, start = 0, 0
    for m in re.finditer(r"[(\[{]|[)\]}]|(?<=\s)in(?=\s)", val):
        if m.group(0) in "([{":
            depth += 1
        elif m.group(0) in ")]}":
            depth -= 1
        elif depth == 0:
            start = m.end()
    # the tuple may be what `rw` or `simp` is given last
    m = re.match(r"\s*(?:rw|simp)\s", val[start:])
    if m and val.rstrip().endswith(")"):
        depth = 0
        for i in range(len(val.rstrip()) - 1, start, -1):
            depth += {")": 1, "]": 1, "}": 1, "(": -1, "[": -1, "{": -1}.get(val[i], 0)
            if depth == 0:
                parts = split_tuple(val[i:])
                if parts and len(parts) == len(clauses) and val[start + m.end() : i].strip():
                    return val[:i] + "(record {\n      " + ";\n      ".join(f"{c} = {p}" for c, p in zip(clauses, parts)) + ";\n    })"
                break
    parts = split_tuple(val[start:])
    if not parts and re.match(r"\s*(?!(?:record|elim|rw|simp|omega|search|grind|cc|absurd|subst)\b)[\w.'-]+\s+\S", val[start:]):
        # a law that gives them all
        d = "all" if re.search(r"(?<![\w.'-])d(?![\w'-])", val) else "d"
        return val[:start] + f"\n    let {d} =" + val[start:].rstrip() + " in record {\n      " + ";\n      ".join(f"{c} = {d}.{i}" for i, c in enumerate(clauses)) + ";\n    }"
    if not parts or len(parts) != len(clauses):
        # a lemma's pair, of which the record takes the parts
        tail = val[start:].strip()
        word = re.match(r"[^\s(){}]+", tail)
        tactics = {"rw", "simp", "search", "omega", "grind", "cc", "elim", "record", "let", "λ", "?", "absurd"}
        if len(clauses) > 1 and word and word.group(0) not in tactics and " " in tail:
            proj = ["both" + ".1" * k + (".0" if k < len(clauses) - 1 else "") for k in range(len(clauses))]
            fields = "; ".join(f"{c} = {p}" for c, p in zip(clauses, proj))
            return val[:start].rstrip() + f"\n    let both = {tail} in\n    record {{ {fields} }}"
        return val
    lead = re.match(r"\s*", val[start:]).group(0)
    return val[:start] + (lead or " ") + "record {\n      " + ";\n      ".join(f"{c} = {p}" for c, p in zip(clauses, parts)) + ";\n    }"


class Fn:
    def __init__(self, d):
        self.clauses = d.get("asked") or {}
        self.needs = d["needs"]
        self.asked = d["asked_at"]
        self.places = {}
        self.old = {}
        for p, n in zip(d["places"], d["places_by_name"]):
            self.places[p[0]] = {"parent": p[1], "old": p[2][0], "new": p[2][1], "name": n, "callee": p[3]}
            self.old[norm(p[0])] = p[0]
        self.params = []
        self.loops = d["loops"]
        self.changed = d["changed"]

    def need(self, *names):
        picks = (lambda o: o, norm, lambda o: re.sub(r"^overflow-", "", norm(o)), lambda o: re.sub(r"^(overflow|shared-slice|slice-bounds|nonzero)-", "", norm(o)))
        # names as they were go first: a name of today may be that of another goal then
        for which in (0, 1):
            for pick in picks:
                for n in names:
                    for i, need in enumerate(self.needs):
                        if pick(need[which]) == pick(n):
                            return i
        return None

    def chain(self, place):
        out = []
        while place:
            out.append(place)
            place = self.places[place]["parent"]
        return out


def clause_names():
    """For each function of the repository with two clauses of a kind or more, their names, in order."""
    out = {}
    for f in glob.glob("crates/*/src/**/*.rt", recursive=True):
        t = open(f, encoding="utf-8").read()
        for m in re.finditer(r"\bfn (\w+)[^{]*?\)(?: -> [^\n{]*)?\n((?:    (?:requires|ensures)\*?[^\n]*\n(?:        [^\n]*\n|    \}\n)*)+)", t):
            for kind in ("requires", "ensures"):
                names = re.findall(r"^    %s (\w+) \{" % kind, m.group(2), re.M)
                if len(names) > 1:
                    out[(m.group(1), kind)] = names
    return out


CLAUSES = {}
# the variables whose `!x` the crate's code tests
LOCALS = set()


def named_places(rest, callee):
    """`.new.1.0` and `.auto.1.0` of a call, by the callee's parameter."""
    if not callee or len(rest) < 3 or rest[1] not in ("new", "auto"):
        return rest
    k = 2
    while k < len(rest) and rest[k] == "1":
        k += 1
    names = parameters(*callee.split("::", 1)) if "::" in callee else []
    if k == len(rest) or rest[k] != "0" or k - 2 >= len(names):
        return rest
    return rest[:2] + [names[k - 2]] + rest[k + 1 :]


class Env:
    """Variables that stand for a place: name -> (root variable, place)."""

    def __init__(self, fn, ctx):
        self.fn, self.vars, self.ctx = fn, {}, ctx
        self.results = {}
        self.said = []
        self.used = set()

    def at(self, root, place):
        """The record of a place, as an argument."""
        r, p0 = self.vars[root][0], self.vars[root][1]
        base, bplace, ctx = self.ctx[r]
        if place == bplace:
            return base
        self.used.add(self.fn.places[place]["name"])
        return f"(goal.at.{ctx} {base}).{self.fn.places[place]['name']}"

    def walk(self, root, place, parts):
        """(text, place or None) of a path from a place."""
        i = 0
        while i < len(parts) and parts[i] == "before":
            parent = self.fn.places[place]["parent"]
            # fewer steps lead up to here than did
            place = parent if parent is not None else place
            i += 1
        rest = parts[i:]
        if not rest:
            return None, place
        if rest[0] == "pre":
            rest[0] = "requires"
        step = rest[0]
        if step == "args" and len(rest) > 1 and re.fullmatch(r"t\d+", rest[1]):
            k = int(rest[1][1:]) - 1
            if k < len(self.fn.params):
                rest = ["args", self.fn.params[k]] + rest[2:]
            return rest, place
        top = {norm(n): n for n in ("args", "requires", "ranges", "utf8", "type_inv", "lifetimes", "well_formed")}
        if norm(step) in top:
            rest = [top[norm(step)]] + rest[1:]
            if rest[0] == "requires" and len(rest) > 1 and rest[1].isdigit():
                named = CLAUSES.get((self.fn.name, "requires"))
                if named and int(rest[1]) < len(named):
                    rest[1] = named[int(rest[1])]
            return rest, place
        # upwards from the place; then, since fewer steps lead up to it than did, from where the variable stands
        whole = self.fn.chain(self.ctx[root][1])
        for same in (lambda a, b: norm(a) == norm(b), lambda a, b: norm(a).lower() == norm(b).lower()):
            for chain in (self.fn.chain(place), whole[: whole.index(place)][::-1] if place in whole else []):
                for q in chain:
                    p = self.fn.places[q]
                    if p["old"] and same(p["old"], step):
                        rest = [p["new"]] + rest[1:]
                        if rest[1:2] == ["inv"]:
                            rest[1] = "invariant"
                        if rest[1:2] == ["ensures"] and len(rest) > 2 and rest[2].isdigit() and p["callee"]:
                            named = CLAUSES.get((p["callee"].split("::")[-1], "ensures"))
                            if named and int(rest[2]) < len(named):
                                rest[2] = named[int(rest[2])]
                        return named_places(rest, p["callee"]), place
                for q in chain:
                    p = self.fn.places[q]
                    if p["new"] and same(p["new"], step):
                        return [p["new"]] + rest[1:], place
        self.said.append(f"no step {step} at {place}")
        return rest, place

    def path(self, root, parts):
        r, place = self.vars[root]
        base = self.ctx[r][0]
        rest, p = self.walk(r, place, parts)
        if rest is None:
            return None, p
        return base + "." + ".".join(rest), None

    def callee(self, name, parts):
        """The function that a path's last part calls."""
        rest, _ = self.walk(self.vars[name][0], self.vars[name][1], parts)
        if not rest or len(rest) > 1:
            return None
        return next((p["callee"] for p in self.fn.places.values() if p["new"] == rest[0] and p["callee"]), None)

    def by_name(self, name, callee, text):
        """`x.new.1.0`, `x.auto.1.0` and `x.ensures.1` by their names, where x is a call."""
        def one(m):
            rest = m.group(1).split(".")
            if rest[0] == "ensures":
                named = CLAUSES.get((callee.split("::")[-1], "ensures"))
                return f"{name}.ensures.{named[int(rest[1])]}" if named and int(rest[1]) < len(named) else m.group(0)
            return name + "." + ".".join(named_places([""] + rest, callee)[1:])

        return re.sub(r"(?<![\w.'-])%s\.((?:new|auto)(?:\.[01])+|ensures\.\d+)(?![\w'-])" % re.escape(name), one, text)

    def turn(self, text):
        # lets that name a place go, in their order
        pos = 0
        let = re.compile(r"let (%s) =\s+\(?((?:\((%s) (%s)((?:\.before)*)\)|%s)((?:\.%s)*)?)\)?\s+in(?=\s)\s*" % (WORD, WORD, WORD, WORD, WORD))
        while True:
            m = re.compile(r"let (%s) =\s+([^\n]*?)\s+in(?=\s)[ ]*" % WORD).search(text, pos)
            if not m:
                break
            name, val = m.group(1), m.group(2).strip()
            if val.startswith("(") and val.endswith(")") and re.fullmatch(r"\([\w.'-]+\)", val):
                val = val[1:-1]
            pm = re.fullmatch(r"(%s)((?:\.%s)*)" % (WORD, WORD), val)
            place = root = None
            if pm and pm.group(1) in self.vars:
                t, place = self.path(pm.group(1), [x for x in pm.group(2).split(".") if x])
                root = self.vars[pm.group(1)][0]
            else:
                hm = re.fullmatch(r"\(?(%s) (%s)((?:\.before)*)\)?((?:\.before)*)" % (WORD, WORD), val)
                if hm and hm.group(1) in self.results and hm.group(2) in self.vars:
                    # a helper that gives a place: its own chain goes on from there
                    place = self.results[hm.group(1)]
                    for _ in range(hm.group(4).count(".before")):
                        place = self.fn.places[place]["parent"]
                    root = self.vars[hm.group(2)][0]
            if place:
                self.vars[name] = (root, place)
                text = text[: m.start()] + text[m.end() :]
                text = text[: m.start()] + re.sub(r"^\n\s*", "", text[m.start() :])
                pos = m.start()
            else:
                if pm and pm.group(1) in self.vars and pm.group(2):
                    callee = self.callee(pm.group(1), [x for x in pm.group(2).split(".") if x])
                    if (self.path(pm.group(1), [x for x in pm.group(2).split(".") if x])[0] or "").split(".")[-1].startswith("loop"):
                        text = text[: m.end()] + re.sub(r"(?<![\w.'-])%s\.inv(?![\w'-])" % re.escape(name), name + ".invariant", text[m.end() :])
                    if callee:
                        text = text[: m.end()] + self.by_name(name, callee, text[m.end() :])
                if name in self.vars:
                    del self.vars[name]
                pos = m.start() + 4
        # paths from a helper's result
        def helped(m):
            h, v, chain, tail = m.group(1), m.group(2), m.group(3), m.group(4)
            if h not in self.results or v not in self.vars:
                return m.group(0)
            rest, place = self.walk(self.vars[v][0], self.results[h], [x for x in tail.split(".") if x])
            base = self.ctx[self.vars[v][0]][0]
            if rest is None:
                return self.at(v, place)
            return base + "." + ".".join(rest)

        text = re.sub(r"\((%s) (%s)((?:\.before)*)\)((?:\.%s)+)" % (WORD, WORD, WORD), helped, text)

        def one(m):
            root, tail = m.group(1), m.group(2) or ""
            # `rw e at h` is no variable
            if root not in self.vars or (root == "at" and not tail and re.match(r"\s+(?!in\b)[\w(]", text[m.end() :])):
                return m.group(0)
            parts = [x for x in tail.split(".") if x]
            t, place = self.path(root, parts)
            return t if t else self.at(root, place)

        text = re.sub(r"(?<![^\s(\[{,;])(%s)((?:\.[^\s(){}\[\].;,]+)*)(?=[\s)\]},;]|$)" % r"[^\s(){}\[\].;,:@=|]+", one, text)
        for n in set(re.findall(r"let (\S+) =\s+\S+\.args\s+in", text)):
            text = re.sub(r"(?<![\w.'-])%s\.t(\d+)(?![\w'-])" % re.escape(n), lambda m: n + "." + (self.fn.params[int(m.group(1)) - 1] if int(m.group(1)) <= len(self.fn.params) else "t" + m.group(1)), text)
        return text


def declarations(text):
    """Chunks: comments and lines of one declaration."""
    out, cur = [], []
    for line in text.split("\n"):
        if line.strip() == "":
            if cur:
                out.append(cur)
                cur = []
        else:
            cur.append(line)
    if cur:
        out.append(cur)
    return out


def plain_tests(val, fn):
    """A test of `!f(..)` says that `f`'s answer `≡ false` or `≡ true` itself, and so does one of `!x`; one of a `!x.y` still says `not x.y`."""
    called = {norm(p["callee"].split("::")[-1]) for p in fn.places.values() if p["callee"]} | LOCALS

    def plain(m):
        return m.group(1) if norm(re.sub(r"(?:-then-|-else-|-in-|-\d+$).*", "", m.group(2))) in called else m.group(0)

    fact = r"(\S*\.if-not[_-]([^\s).]*)\.(?:true|false))"
    val = re.sub(r"\(not-(?:true|false) \S+\s+" + fact + r"\)", plain, val)
    return re.sub(r"not-(?:true|false) \S+\s+" + fact, plain, val)


def parameters(crate, rel):
    """The names of a function's parameters, in order."""
    parts = rel.replace("::", ".").split(".")
    name = parts[-1]
    for f in glob.glob(f"crates/{crate}/src/**/*.rt", recursive=True):
        mod = os.path.splitext(os.path.relpath(f, f"crates/{crate}/src"))[0].replace("/", ".")
        mods = [] if mod in ("lib", "main") else mod.removesuffix(".mod").split(".")
        if parts[: len(mods)] != mods or len(parts) - len(mods) > 2:
            continue
        t = open(f, encoding="utf-8").read()
        if mods == [] and len(parts) == 2 and parts[0].islower():
            continue
        m = re.search(r"\bfn %s(?:<[^(]*>)?\(([^)]*(?:\([^)]*\)[^)]*)*)\)" % re.escape(name), t)
        if m:
            out = []
            for p in re.split(r",(?![^\[(<]*[\])>])", m.group(1)):
                p = p.strip()
                if p:
                    out.append("self" if re.fullmatch(r"&?(?:'\w+ )?(?:mut )?self", p) else re.sub(r"^mut ", "", p.split(":")[0].strip()))
            return out
    return []


def convert(path, fn, said):
    text = open(path, encoding="utf-8").read()
    chunks = declarations(text)
    head = chunks[0]
    comments = [l for l in head if l.startswith("--")]
    body_chunks = chunks[1:]
    # use lines can run over several chunks' heads
    uses = []
    joined = "\n".join(head)
    uses = re.findall(r"^(?:pub )?use (?:[^\n{]*\{[^}]*\}|[^\n]*)(?:\n    [^\n]*)*", joined, re.M)
    module = None
    kept_uses = []
    for u in uses:
        m = re.match(r"use (Rattle\.\S+)\.Tie as tie", u)
        if m:
            module = m.group(1)
            continue
        if re.search(r"\.Statement\.\{statement\}", u):
            continue
        kept_uses.append(u)
    if module is None:
        said.append((path, "no Tie import"))
        return
    invs, answers, places = [], [], set()
    results = {}
    asks = {}
    inv_names = {}
    for chunk in body_chunks:
        com = [l for l in chunk if l.startswith("--")]
        rest = [l for l in chunk if not l.startswith("--")]
        if not rest:
            answers.append("\n".join(com))
            continue
        src = "\n".join(rest)
        if re.search(r"^(pub )?\S+ : \{M : Type 1\} → statement M", src, re.M):
            continue
        m = re.match(r"(abbrev |unfoldable )?(pub )?(\S+) : tie\.(invariant|decreases)(-\S+)\s*\n", src)
        if m:
            kind, lname = m.group(4), m.group(5)[1:]
            loop = next((l for l in fn.loops if norm(l[0][0]) == norm(lname) or norm(l[0][1]) == norm(lname)), None)
            if loop is None:
                said.append((path, "no loop " + lname + " among " + str([l[0] for l in fn.loops])))
                continue
            k = fn.loops.index(loop)
            changed = fn.changed[k]
            eq = src[m.end() :]
            unf = ""
            um = re.match(r"((?:unfolding [^\n]*\n)*)", eq)
            unf, eq = um.group(1), eq[um.end() :]
            cm = re.match(re.escape(m.group(3)) + r"([^=]*?)=(?=\s)", eq)
            args = cm.group(1).split()
            val = eq[cm.end() :]
            vars_ = loop[1]
            names = {}
            want = [("initial." + v if c else v) for v, c in zip(vars_, changed)] + [v for v, c in zip(vars_, changed) if c]
            if len(want) != len(args):
                said.append((path, f"loop {lname}: {len(args)} names for {want}"))
            for a, w in zip(args, want):
                if a != "_":
                    names[a] = "l." + w
            def sub(mm):
                return names.get(mm.group(1), mm.group(1)) + (mm.group(2) or "")
            val = re.sub(r"(?<![^\s(\[{,;])([^\s(){}\[\].;,:@=|]+)((?:\.[^\s(){}\[\].;,]+)*)(?=[\s)\]},;]|$)", sub, val)
            new = f"{kind}-{loop[0][1]}"
            invs.append("\n".join(com + [f"abbrev pub {new} : goal.{new}"]) + ("\n" + unf.rstrip() if unf else "") + f"\n{new} l ={val}")
            inv_names[m.group(3)] = new
            continue
        dm = re.match(r"((?:abbrev |unfoldable )?(?:pub )?)([^\s:]+) : ", src)
        if not dm:
            answers.append("\n".join(chunk))
            said.append((path, "not understood: " + src[:80]))
            continue
        name = dm.group(2)
        nm = re.match(r"((?:abbrev |unfoldable )?(?:pub )?)([^\s:]+) : tie\.Need-(\S+)", src)
        if nm:
            i = fn.need(nm.group(3), name)
            rest_src = src.split("\n", 1)[1]
            unf = ""
            um = re.match(r"((?:unfolding [^\n]*\n)*)", rest_src)
            unf, rest_src = um.group(1), rest_src[um.end() :]
            cm = re.match(re.escape(name) + r"([^=]*?)=(?=\s)", rest_src)
            if not cm:
                said.append((path, "no clause for " + name))
                answers.append("\n".join(chunk))
                continue
            args = cm.group(1).split()
            val = rest_src[cm.end() :]
            if val.strip() == "search rules" and not unf:
                continue
            if i is None:
                said.append((path, f"no goal for {nm.group(3)} ({name}) among {[n[0] for n in fn.needs]}"))
                answers.append("\n".join("-- LEFT " + l for l in chunk))
                continue
            goal = fn.needs[i][1]
            place = fn.asked[i][0]
            var = args[0] if args else "c"
            env = Env(fn, {var: (var, place, goal)})
            env.vars[var] = (var, place)
            env.results = results
            val = env.turn(val)
            places |= env.used
            clauses = fn.clauses.get(goal) or fn.clauses.get(fn.needs[i][0])
            if clauses:
                val = as_record(val, clauses)
            val = plain_tests(val, fn)
            if len(args) > 1 and re.search(r"(?<![\w.])κs(?![\w])", val):
                said.append((path, "κs in " + name))
            for s in env.said:
                said.append((path, name + ": " + s))
            answers.append("\n".join(com + [f"pub {goal} : goal.{goal}"]) + ("\n" + unf.rstrip() if unf else "") + f"\n{goal} {var} ={val}")
            continue
        if "tie." not in src:
            answers.append("\n".join(chunk))
            continue
        # a helper over places
        lines = src.split("\n")
        k = next((j for j in range(1, len(lines)) if re.match(re.escape(name) + r"( |$)", lines[j])), len(lines))
        j = k
        while j - 1 > 0 and lines[j - 1].startswith("unfolding"):
            j -= 1
        sig, unf, clause = "\n".join(lines[:j]), "\n".join(lines[j:k]), "\n".join(lines[k:])
        clause_args = []
        cm = re.match(re.escape(name) + r"([^=]*?)=(?=\s)", clause)
        val = ""
        if cm:
            clause_args = cm.group(1).split()
            val = clause[cm.end() :]
        binders = []
        PL = r"tie\.(\S+?)((?: [a-z]*-?(?:invariant|decreases)-[^\s)]+)*)(?=[\s)])"
        # in order: (v : tie.X ..) or a bare tie.X .. →
        env = Env(fn, {})
        env.results = results
        order = []
        typ = sig[dm.end() :]
        for b in re.finditer(r"\((\S+) : " + PL + r"\)|(?<!: )" + PL.replace("(?=[\\s)])", "(?=[\\s)]|$)"), typ):
            v = b.group(1)
            pl = b.group(2) or b.group(4)
            order.append((v, pl, b.start()))
        def place_of(pl):
            return fn.old.get(norm(pl)) or next((o for o, d in fn.places.items() if norm(d["name"]) == norm(pl)), None)
        n_args = 0
        result = None
        for idx, (v, pl, at) in enumerate(order):
            p = place_of(pl)
            if p is None:
                said.append((path, f"{name}: no place {pl}"))
                continue
            places.add(fn.places[p]["name"])
            if v is None and idx == len(order) - 1 and idx > 0 and "→" not in typ[at:]:
                result = p
                continue
            cv = clause_args[n_args] if n_args < len(clause_args) else (v or "c")
            env.ctx[v or cv] = (v or cv, p, fn.places[p]["name"])
            if n_args == 0 and typ[:at].strip() == "":
                asks[name] = fn.places[p]["name"]
            env.vars[v or cv] = (v or cv, p)
            if v and cv != v:
                env.ctx[cv] = (cv, p, fn.places[p]["name"])
                env.vars[cv] = (cv, p)
            n_args += 1
        # places in the type by their names now
        def typed(mm):
            p = place_of(mm.group(1))
            return fn.places[p]["name"] if p else mm.group(0)
        sig = re.sub(PL.replace("(?=[\\s)])", "(?=[\\s)]|$)"), typed, sig)
        head_, tail_ = sig[: dm.end()], sig[dm.end() :]
        env2 = Env(fn, dict(env.ctx))
        env2.vars = dict(env.vars)
        env2.results = results
        # binders themselves stay
        tail_ = re.sub(r"\((\S+) : ([^()]*)\)", lambda mm: f"⟪{mm.group(1)}∶{mm.group(2)}⟫" if mm.group(1) in env2.vars else mm.group(0), tail_)
        tail_ = env2.turn(tail_)
        tail_ = re.sub(r"⟪(\S+?)∶([^⟫]*)⟫", r"(\1 : \2)", tail_)
        if result:
            results[name] = result
            v = next(iter(env.vars))
            val = " " + f"(goal.at.{env.ctx[v][2]} {v}).{fn.places[result]['name']}" if env.ctx[v][1] != result else " " + v
        else:
            val = plain_tests(env.turn(val), fn)
        places |= env.used | env2.used
        if result:
            places.add(fn.places[result]["name"])
        for s in env.said + env2.said:
            said.append((path, name + ": " + s))
        answers.append("\n".join(com + [head_ + tail_]) + ("\n" + unf if unf else "") + (f"\n{name}{cm.group(1)}={val}" if cm else ""))
    # a helper is given the place that it asks for
    for h, pl in asks.items():
        answers = [re.sub(r"(?<![^\s(])%s (\(goal\.at\.\S+ \S+\))\.[A-Z][^\s,;)]*" % re.escape(h), lambda m: f"{h} {m.group(1)}.{pl}", a) for a in answers]
    places = {p for p in places if any(re.search(r"(?<![\w-])" + re.escape(p) + r"(?![\w-])", re.sub(r"\)\.\S+", "", a)) for a in answers)}
    folder = os.path.dirname(path)
    top = "\n".join(comments)
    usetext = "\n".join(kept_uses)
    if invs:
        helpers = []
        for a in list(answers):
            m = re.match(r"(?:--[^\n]*\n)*(abbrev |unfoldable )?(pub )?([^\s:]+) : ", a)
            if m and "goal." not in a and any(re.search(r"(?<![\w.'-])%s(?![\w'-])" % re.escape(m.group(3)), i) for i in invs):
                helpers.append((m.group(3), a))
        for n, a in helpers:
            answers.remove(a)
        htext = [re.sub(r"^((?:--[^\n]*\n)*)(abbrev |unfoldable )?(pub )?", r"\1\2pub ", a, count=1) for _, a in helpers]
        with open(os.path.join(folder, "Invariants.antt"), "w", encoding="utf-8") as f:
            f.write((top + "\n" if top else "") + usetext + f"\nuse {module}.Given as goal\n\n" + "\n\n".join(htext + invs) + "\n")
        if helpers:
            usetext += f"\nuse {module}.Invariants.{{{', '.join(n for n, _ in helpers)}}}"
    if any(a.strip() for a in answers):
        if places:
            usetext += f"\nuse {module}.Goals.{{{', '.join(sorted(places))}}}"
        with open(os.path.join(folder, "Answers.antt"), "w", encoding="utf-8") as f:
            f.write((top + "\n" if top else "") + usetext + f"\nuse {module}.Goals as goal\n\n" + "\n\n".join(answers) + "\n")
    os.remove(path)


def main():
    crate = sys.argv[1]
    here = os.path.join("crates", crate)
    paths = sorted(glob.glob(here + "/proofs/**/Proof.antt", recursive=True))
    paths = [p for p in paths if "tie.spec" in open(p, encoding="utf-8").read()]
    if not paths:
        print("nothing to turn")
        return
    tmp = tempfile.mkdtemp(prefix="names-")
    r = subprocess.run(["rt", "check", "--generated", tmp, "--old-names"], cwd=here, capture_output=True, text=True)
    if not os.path.exists(tmp + "/names.json"):
        print(r.stdout[-3000:], r.stderr[-3000:])
        sys.exit(1)
    names = json.load(open(tmp + "/names.json"))
    said = []
    CLAUSES.update(clause_names())
    for f in glob.glob(here + "/src/**/*.rt", recursive=True):
        LOCALS.update(norm(w) for w in re.findall(r"!(\w+)\b(?![.(\[])", open(f, encoding="utf-8").read()))
    for p in paths:
        rel = os.path.relpath(os.path.dirname(p), here + "/proofs").replace("/", ".")
        key = f"Rattle-{crate}-proofs.{rel}.Lts"
        if key not in names:
            said.append((p, "no names"))
            continue
        try:
            fn = Fn(names[key])
            fn.params = parameters(crate, rel)
            fn.name = rel.split(".")[-1]
            convert(p, fn, said)
        except Exception as e:  # one file that is not understood stays as it is
            said.append((p, f"error {type(e).__name__}: {e}"))
            for n in ("Invariants.antt", "Answers.antt"):
                q = os.path.join(os.path.dirname(p), n)
                if os.path.exists(q) and os.path.exists(p):
                    os.remove(q)
    shutil.rmtree(tmp, ignore_errors=True)
    for p, s in said:
        print("left:", p, s)
    print(f"{len(paths)} files")


main()
