#!/usr/bin/env python3
"""Turns proofs over the checker's older parts (proofs/F/Proof.antt, which give `tie.spec` an answer to each goal) to Invariants.antt and Answers.antt.

usage: answers.py NAMES OLD CRATE [F..]

NAMES is the names.json that `rt check --generated DIR --old-names` writes for the crate while the older files stand in it, OLD the folder with those files
(OLD/F/Proof.antt), CRATE the crate's folder. Without F it turns every file of OLD. A path through the older records, as c.before.before.x.given.0.0, becomes
the name that the checker lists now, as c.in-Value.x; what only asked for a search is left out, since the check finds it alone.
"""

import glob
import json
import os
import re
import sys

ID = r"[^\s(){}.;,@\"«»\[\]\\`]+"
alike = lambda it: re.sub(r"[-_]", "", it).lower()


# ---- labels of clauses, from the sources of all crates

def labels(root):
    """For each function `crate::f` the labels of its requires and its ensures."""
    found = {}
    for path in glob.glob(f"{root}/crates/*/src/**/*.rt", recursive=True):
        crate = path.split("/crates/")[1].split("/")[0]
        text = open(path).read()
        impl = None
        for m in re.finditer(r"^impl(?:<[^>]*>)? (\w+)|^( *)(?:pub )?(?:unsafe )?(?:extern \"C\" )?fn (\w+)(.*?)^\2\{", text, re.M | re.S):
            if m[1]:
                impl = m[1]
                continue
            name = f"{crate}::{impl}::{m[3]}" if m[2] and impl else f"{crate}::{m[3]}"
            found[name] = {kind: re.findall(rf"^\s*{kind}(?: (\w+))? \{{", m[4], re.M) for kind in ("requires", "ensures")}
            ps = m[4][closing(m[4], m[4].index("(")) * 0 + m[4].index("(") + 1 : closing(m[4], m[4].index("(")) - 1]
            found[name]["params"] = re.findall(r"(?:^|,)\s*(?:mut )?(\w+):", ps) if "self" not in ps else ["self"] + re.findall(r",\s*(?:mut )?(\w+):", ps)
    return found


# ---- text

def closing(text, at):
    """The place behind the bracket that closes the one at `at`."""
    pairs = {"(": ")", "[": "]", "{": "}"}
    deep = []
    i = at
    while i < len(text):
        ch = text[i]
        if ch in pairs:
            deep.append(pairs[ch])
        elif ch in ")]}":
            assert deep and deep[-1] == ch, text[at : i + 20]
            deep.pop()
            if not deep:
                return i + 1
        elif ch == '"':
            i = text.index('"', i + 1)
        i += 1
    raise ValueError(text[at : at + 80])


def words(text):
    """The arguments of an application: atoms and bracketed terms, each with the path behind it."""
    out, i = [], 0
    while i < len(text):
        if text[i].isspace():
            i += 1
            continue
        start = i
        while i < len(text) and not text[i].isspace():
            i = closing(text, i) if text[i] in "([{" else i + 1
        out.append(text[start:i])
    return out


def parts(text):
    """Splits at the commas of the outermost level."""
    out, i, start = [], 0, 0
    while i < len(text):
        if text[i] in "([{":
            i = closing(text, i)
            continue
        if text[i] == ",":
            out.append(text[start:i])
            start = i + 1
        i += 1
    out.append(text[start:])
    return [it.strip() for it in out if it.strip()]


def let_end(text, i):
    """The place of the `in` that ends the value, begun at i, of a `let`."""
    deep = 0
    while i < len(text):
        if text[i] in "([{":
            i = closing(text, i)
            continue
        w = re.compile(ID).match(text, i)
        if w:
            if w[0] == "let":
                deep += 1
            elif w[0] == "in":
                if deep == 0:
                    break
                deep -= 1
            i = w.end()
            continue
        i += 1
    return i


def alone(text, i, k):
    """Whether text[i:k] is a whole entry of a tactic's list."""
    after = text[k:].lstrip()[:1]
    if after and after not in ",)":
        return False
    deep, j = 0, i - 1
    first = True
    while j >= 0:
        ch = text[j]
        if ch in ")]}":
            deep += 1
        elif ch in "([{":
            if deep == 0:
                return bool(re.search(r"\b(omega|search|grind)\s*$", text[:j]))
            deep -= 1
        elif ch == "," and deep == 0:
            first = False
        elif first and not ch.isspace() and deep == 0:
            return False
        j -= 1
    # the list's brackets were taken off, its first entry is there
    return not first and text.lstrip().startswith(("arith", "rules", "tests"))


class Place:
    def __init__(self, of, i):
        self.of, self.i = of, i

    def __eq__(self, other):
        return isinstance(other, Place) and self.i == other.i


class Function:
    def __init__(self, name, table, contract, callees):
        self.name, self.t, self.contract, self.callees = name, table, contract, callees
        self.places = table["places"]
        self.index = {}
        for i, p in enumerate(self.places):
            self.index.setdefault(alike(p[0]), i)

    def place(self, name):
        i = self.index.get(alike(name))
        return i

    def whole(self, i):
        """The place of the whole arm, for one of the steps in which an arm is taken apart."""
        arms = self.t.get("arms") or []
        if i < len(arms) and arms[i]:
            return max(k for k, it in enumerate(arms) if it and it[0] == arms[i][0])
        return i

    def new_place(self, i):
        return self.t["places_by_name"][self.whole(i)]

    def parent(self, i):
        up = self.places[i][1]
        return None if up is None else self.index[alike(up)]

    def goal_place(self, k):
        return self.index[alike(self.t["asked_at"][k][0])]

    def step(self, i, path):
        """The new path of an old path that begins at place i with its own step."""
        old, new = self.places[i][2]
        callee = self.places[i][3]
        renames = dict(self.places[i][4])
        first, rest = path[0], path[1:]
        if rest and rest[0] == "last":
            rest = ["new", *rest[1:]]
            path = [first, *rest]
        if self.places[i][1] is None:
            if first == "pre":
                first, rest = ("requires", rest) if not rest else ("requires", rest)
            if first == "requires":
                rest = self.labelled("requires", self.contract, rest)
            return [first, *rest]
        if alike(first) != alike(old):
            return None
        arm = self.t["arms"][i] if self.t.get("arms") else None
        if arm:
            best = None
            for field, step, path2 in arm[2]:
                if alike(step) == alike(old) and rest[: len(path2)] == path2 and path2:
                    if best is None or len(path2) > len(best[1]):
                        best = (field, path2)
            if best:
                out = rest[len(best[1]) :]
                if best[0] == "ensures":
                    out = self.labelled("ensures", self.arm_callee(i), out)
                return [arm[0], best[0], *out]
            own = next((field for field, step, path2 in arm[2] if alike(step) == alike(old) and not path2), None)
            if own:
                return [arm[0], own, *rest]
        if rest and rest[0] in ("taken", "left") and (re.match(r"if\d", old) or old.endswith("-test")):
            rest = [{"taken": "true", "left": "false"}[rest[0]], *rest[1:]]
        if rest and rest[0] in renames:
            rest = [renames[rest[0]], *rest[1:]]
        if callee and rest:
            if rest[0] == "ensures":
                rest = ["ensures", *self.labelled("ensures", self.callees.get(callee), rest[1:])]
            if rest[0] in ("new", "auto") and len(rest) > 1:
                n, k = 0, 1
                while k < len(rest) and rest[k] == "1":
                    n, k = n + 1, k + 1
                if k < len(rest) and rest[k] == "0":
                    ps = self.t.get("params", {}).get(callee) or (self.callees.get(callee) or {}).get("params")
                    if ps and n < len(ps):
                        rest = [rest[0], ps[n], *rest[k + 1 :]]
        if rest and rest[0] == "inv":
            rest = ["invariant", *rest[1:]]
        return [new, *rest]

    def arm_callee(self, i):
        """The function whose result the arm of place i takes apart."""
        while i is not None:
            if self.places[i][3]:
                return self.callees.get(self.places[i][3])
            i = self.parent(i)
        return None

    def labelled(self, kind, contract, rest):
        names = contract[kind] if contract else []
        if len(names) < 2 or not rest or not all(names):
            return rest
        n, k = 0, 0
        while k < len(rest) and rest[k] == "1" and n < len(names) - 1:
            n, k = n + 1, k + 1
        if n == len(names) - 1:
            return [names[n], *rest[k:]]
        if k < len(rest) and rest[k] == "0":
            return [names[n], *rest[k + 1 :]]
        return rest


# A term that stands for a place, or for a path from one.
class Alias:
    def __init__(self, base, at, place, path=()):
        self.base, self.at, self.place, self.path = base, at, place, tuple(path)


PATH = re.compile(rf"(?P<app>\()|(?P<id>{ID})")


class Turner:
    """Turns the terms of one function's file."""

    def __init__(self, f):
        self.f = f
        self.helpers = {}  # helper name -> place of its last parameter
        self.views = {}  # helper name -> (place of parameter, place it stands for)
        self.answers = {}  # old name of an answer -> new goal
        self.imports = set()
        self.said = []

    def cast(self, alias):
        """The term for a place, to be handed to a helper."""
        if alias.at[0] == "place" and self.f.whole(alias.at[1]) == self.f.whole(alias.place):
            return alias.base
        self.imports.add(self.f.new_place(alias.place))
        kind, name = alias.at
        at = self.f.new_place(name) if kind == "place" else name
        if kind == "place":
            self.imports.add(at)
        if kind == "goal" and self.f.new_place(alias.place) is None:
            self.said.append("no place")
        return f"(goal.at.{at} {alias.base}).{self.f.new_place(alias.place)}"

    def follow(self, alias, path):
        """An alias further along: another alias, or the text of a term."""
        path = [*alias.path, *path]
        place = alias.place
        while path and path[0] == "before":
            up = self.f.parent(place)
            if up is None:
                path = path[1:]
                continue
            place, path = up, path[1:]
        if not path:
            return Alias(alias.base, alias.at, place)
        new = None
        i = place
        while i is not None and new is None:
            new = self.f.step(i, path)
            if new is None:
                i = self.f.parent(i)
        if new is None and self.f.places[place][1] is None:
            pass
        if new is None or i is not None and self.f.places[i][1] is None and path[0] not in ("args", "requires", "pre", "ranges", "lifetimes", "well_formed"):
            # the older records had a place more on the way: the step has one name on it
            i = self.goal_place(alias)
            while i is not None:
                new = self.f.step(i, path) if self.f.places[i][1] is not None else None
                if new is not None:
                    break
                i = self.f.parent(i)
            if new is None and path[0] in ("args", "requires", "pre", "ranges", "lifetimes", "well_formed"):
                i = 0
                new = self.f.step(0, path)
        if new is None:
            self.said.append("no step " + ".".join(path))
            new = path
        at = i if i is not None else place
        if self.f.places[at][1] is None:
            if path[0] in ("requires", "pre") and all(it == "1" for it in path[1:]) and self.f.contract and len(self.f.contract["requires"]) > 1 and len(path) < len(self.f.contract["requires"]):
                return Alias(alias.base, alias.at, at, path)
        elif alike(path[0]) == alike(self.f.places[at][2][0]):
            several = self.f.callees.get(self.f.places[at][3]) or self.f.arm_callee(at) or {}
            tail = path[2:] if len(path) > 1 else []
            if len(path) == 1 or path[1] in ("new", "last") and all(it == "1" for it in tail) or path[1] == "ensures" and len(several.get("ensures", [])) - 1 > len(tail) and all(it == "1" for it in tail) or self.partial(at, path):
                return Alias(alias.base, alias.at, at, path)
        return alias.base + "." + ".".join(new)

    def goal_place(self, alias):
        kind, at = alias.at
        if kind == "place":
            return at
        for k, (_, new) in enumerate(self.f.t["needs"]):
            if new == at:
                return self.f.goal_place(k)
        return alias.place

    def partial(self, i, path):
        """Whether the path ends inside what an arm takes apart."""
        arm = self.f.t["arms"][i] if self.f.t.get("arms") else None
        if not arm:
            return False
        old = self.f.places[i][2][0]
        if alike(path[0]) != alike(old):
            return False
        rest = path[1:]
        whole = [p for _, s, p in arm[2] if alike(s) == alike(old) and p]
        return any(len(rest) < len(p) and p[: len(rest)] == rest for p in whole) and not any(rest[: len(p)] == p for p in whole)

    def show(self, alias, whole=False):
        if alias.path:
            left = self.several(alias)
            if left:
                if whole:
                    return ", ".join(f"{alias.base}.{it}" for it in left)
                return "(" + ", ".join(f"{alias.base}.{it}" for it in left) + ")"
            new = self.f.step(alias.place, list(alias.path)) or list(alias.path)
            if len(alias.path) > 1 and alias.path[-1] not in ("ensures", "requires", "new"):
                self.said.append("open path " + ".".join(alias.path))
            return alias.base + "." + ".".join(new)
        return self.cast(alias)

    def several(self, alias):
        """The clauses that a path as requires.1 stands for."""
        path = list(alias.path)
        if self.f.places[alias.place][1] is None and path[0] in ("requires", "pre") and self.f.contract:
            names, n, head = self.f.contract["requires"], len(path) - 1, "requires"
        elif len(path) > 1 and path[1] == "ensures":
            callee = self.f.callees.get(self.f.places[alias.place][3]) or self.f.arm_callee(alias.place)
            if not callee:
                return None
            names, n, head = callee["ensures"], len(path) - 2, (self.f.step(alias.place, path[:1]) or path)[0] + ".ensures"
        else:
            return None
        return [f"{head}.{it}" for it in names[n:]] if 0 <= n < len(names) and len(names) > 1 and all(names) else None

    def term(self, text, scope):
        out, i = [], 0
        while i < len(text):
            ch = text[i]
            if ch == '"':
                j = text.index('"', i + 1) + 1
                out.append(text[i:j])
                i = j
                continue
            if text.startswith("--", i):
                j = text.find("\n", i)
                j = len(text) if j < 0 else j
                out.append(text[i:j])
                i = j
                continue
            if ch == "(":
                j = closing(text, i)
                inner = text[i + 1 : j - 1].strip()
                path, k = self.path(text, j)
                m = re.fullmatch(rf"({ID})\s+(.*)", inner, re.S)
                if m and m[1] in self.views:
                    arg = self.place_of(m[2].strip(), scope)
                    if arg is not None:
                        got = self.follow(self.view(m[1], arg), path)
                        out.append(got if isinstance(got, str) else self.show(got, alone(text, i, k)))
                        i = k
                        continue
                got = self.place_of(inner, scope)
                if got is not None:
                    got = self.follow(got, path) if path else got
                    out.append(got if isinstance(got, str) else self.show(got))
                    i = k
                    continue
                out.append("(" + self.term(text[i + 1 : j - 1], scope) + ")")
                i = j
                continue
            m = re.compile(ID).match(text, i)
            if m and (i == 0 or text[i - 1] != "."):
                word = m[0]
                if word == "let" and (i == 0 or not re.match(r"\S", text[i - 1])):
                    got = self.let(text, i, scope)
                    if got:
                        out.append(got)
                        return "".join(out)
                if word in ("λ",) or word.startswith("λ"):
                    # a binder hides an alias
                    j = i
                    dot = re.compile(r"\.\s").search(text, i)
                    k = dot.start() if dot else len(text) - 1
                    bound = set(re.findall(ID, text[i + 1 : k]))
                    inner = {n: a for n, a in scope.items() if n not in bound}
                    out.append(text[i : k + 1])
                    out.append(self.term(text[k + 1 :], inner))
                    return "".join(out)
                path, k = self.path(text, m.end())
                label = not path and re.match(r"\s+=\s", text[m.end() :]) and re.search(r"[{;]\s*$", text[:i])
                if label:
                    out.append(word)
                    i = m.end()
                    continue
                if (word in self.helpers or word in self.views) and not path and word not in scope:
                    # its argument is the record that it was written for
                    skip = re.compile(r"\s*").match(text, m.end()).end()
                    arg = re.compile(ID).match(text, skip)
                    j = closing(text, skip) if text[skip : skip + 1] == "(" else arg.end() if arg else skip
                    _, j = self.path(text, j)
                    got = self.place_of(text[skip:j], scope) if j > skip else None
                    if got is not None and word in self.views:
                        out.append(self.show(self.view(word, got)))
                        i = j
                        continue
                    if got is not None:
                        out.append(f"{word} {self.cast(Alias(got.base, got.at, self.helpers[word]))}")
                        i = j
                        continue
                if word in scope:
                    got = self.follow(scope[word], path)
                    out.append(got if isinstance(got, str) else self.show(got, alone(text, i, k)))
                    i = k
                    continue
                if word in self.answers and not path:
                    out.append(self.answers[word])
                    i = m.end()
                    continue
                out.append(text[i:k])
                i = k
                continue
            out.append(ch)
            i += 1
        return "".join(out)

    def path(self, text, i):
        out = []
        while i < len(text) and text[i] == ".":
            m = re.compile(ID).match(text, i + 1)
            if not m:
                break
            out.append(m[0])
            i = m.end()
        return out, i

    def view(self, name, arg):
        _, to = self.views[name]
        return Alias(arg.base, arg.at, to)

    def place_of(self, text, scope):
        """The alias that a term is, if it is one for a place."""
        text = text.strip()
        if text.startswith("(") and closing(text, 0) == len(text):
            return self.place_of(text[1:-1], scope)
        m = re.match(ID, text)
        if m and m[0] in scope:
            path, k = self.path(text, m.end())
            if k == len(text):
                got = self.follow(scope[m[0]], path)
                return got if isinstance(got, Alias) else None
        if m and m[0] in self.views:
            rest = text[m.end() :].strip()
            arg = self.place_of(rest, scope) if rest else None
            return self.view(m[0], arg) if arg is not None and not arg.path else None
        if text.startswith("("):
            j = closing(text, 0)
            inner = self.place_of(text[1 : j - 1], scope)
            path, k = self.path(text, j)
            if inner is not None and k == len(text):
                got = self.follow(inner, path)
                return got if isinstance(got, Alias) else None
        return None

    def let(self, text, i, scope):
        """`let x = E in B`, where E is an alias: B with it written out; otherwise both turned."""
        m = re.compile(rf"let\s+({ID})(\s*:[^=]*?)?\s+=\s+", re.S).match(text, i)
        if not m:
            return None
        j = let_end(text, m.end())
        value, rest = text[m.end() : j].strip(), text[j + 2 :]
        got = self.place_of(value, scope)
        if got is not None and (not m[2] or re.match(r"\s*:\s*tie\.", m[2])):
            return self.term(rest.lstrip(), {**scope, m[1]: got})
        inner = {n: a for n, a in scope.items() if n != m[1]}
        kind = self.term(m[2], scope) if m[2] else ""
        return f"let {m[1]}{kind} = {self.term(value, scope)} in" + self.term(rest if rest[:1].isspace() else " " + rest, inner)


# ---- one file

HEAD = re.compile(r"^(?:--[^\n]*\n)*")
TRIVIAL = {"search rules", "omega arith", "refl", "tt", "search (rules)"}


def declarations(text):
    """The blocks of a file: each begins at a line without indentation."""
    out, now = [], []
    for line in text.split("\n"):
        if line and not line[0].isspace() and not line.startswith(")"):
            begins = not now or not (line.startswith("unfolding") or any(it.startswith("--") for it in now[-1:]) or re.match(ID, line) and now and names_of(now) and re.match(rf"({ID})", line)[0] in names_of(now))
            if begins:
                if now:
                    out.append("\n".join(now))
                now = []
        now.append(line)
    if now:
        out.append("\n".join(now))
    return out


def names_of(lines):
    for line in lines:
        m = re.match(rf"(?:(?:abbrev|unfoldable|pub) )*({ID}) :", line)
        if m:
            return {m[1]}
    return set()


def turn_file(path, fn, f):
    text = open(path).read()
    head = HEAD.match(text)[0]
    body = text[len(head) :]
    uses = [line for line in body.split("\n") if line.startswith("use ")]
    body = "\n".join(line for line in body.split("\n") if not line.startswith("use "))
    if re.search(r"^\s*(?:abbrev )?goal :", body, re.M):
        body = re.sub(r"(?<![\w.'-])goal(?![\w'-])", "aim", body)
    spec = re.search(rf"pub ({ID}) : \{{M : Type 1\}} → statement M\n(?:unfolding[^\n]*\n)?\1 =\s*tie\.close\s*\(tie\.spec\b", body)
    if not spec:
        return None, "no tie.spec"
    start = body.index("(tie.spec", spec.start())
    end = closing(body, start)
    args = words(body[start + len("(tie.spec") : end - 1])
    rest = body[: spec.start()] + body[end:].replace("\n)", "\n").strip()
    rest = re.sub(r"\s*\)\s*\Z", "\n", rest) if body[end:].strip() == ")" else rest
    loops, needs = f.t["loops"], f.t["needs"]
    typed = dict(re.findall(rf"^(?:(?:abbrev|pub|unfoldable) )*({ID}) : tie\.({ID})", rest, re.M))
    n_inv = 0
    while n_inv < len(args) and re.match(r"(invariant|decreases)-", typed.get(args[n_inv], "")):
        n_inv += 1
    said = []
    t = Turner(f)
    invs = args[:n_inv]
    given = args[n_inv:]
    if len(given) != len(needs):
        given = aligned(given, needs, typed)
        said.append(f"{len(args) - n_inv} answers for {len(needs)} goals")
    named = {}
    for k, arg in enumerate(given):
        if k < len(needs):
            named.setdefault(arg, []).append(k)
    for arg, ks in named.items():
        if re.fullmatch(ID, arg):
            t.answers[arg] = needs[ks[0]][1]
    blocks = declarations(rest)
    invariants, helpers, answers = [], [], {}
    decl = re.compile(rf"^(?P<marks>(?:abbrev |unfoldable |pub )*)(?P<name>{ID}) : (?P<type>.*?)\n(?P<un>unfolding[^\n]*\n)?(?P<body>(?P=name)(?=\s).*)\Z", re.S)

    def comment(block):
        m = re.match(r"(?:--[^\n]*\n|\n)*", block)
        return m[0].strip("\n"), block[m.end() :]

    def inv_of(name):
        """The loop and kind of an invariant or measure by its position."""
        k = invs.index(name)
        return k

    for block in blocks:
        note, code = comment(block)
        if not code.strip():
            continue
        m = decl.match(code)
        if code.startswith("module _"):
            section = turn_module(code, t, f, said)
            if section:
                helpers.append((note, section))
            continue
        if not m:
            helpers.append((note, t.term(code, {}).rstrip() + "\n"))
            said.append("strange block: " + code[:60])
            continue
        name = m["name"]
        if re.match(r"tie\.(invariant|decreases)", m["type"].strip()):
            invariants.append((note, turn_invariant(m, name, f, t, said)))
            continue
        nd = re.match(r"tie\.Need-", m["type"].strip())
        if nd and name in t.answers:
            ks = named[name]
            for k in ks:
                answers[k] = (note, turn_answer(m, name, needs[k][1], f.goal_place(k), f, t, said))
            continue
        pl = re.match(rf"\(({ID}) : tie\.({ID})((?: (?:invariant|decreases)-\S+)*)\)\s+→ (.*)\Z", m["type"].strip(), re.S)
        if pl and f.place(pl[2]) is not None:
            at = f.place(pl[2])
            t.helpers[name] = at
            new = f.new_place(at)
            t.imports.add(new)
            scope0 = {pl[1]: Alias(pl[1], ("place", at), at)}
            kind = f"({pl[1]} : {new}) → " + t.term(pl[4], scope0)
            rows = turn_rows(m["body"], name, [at], f, t, [])
            helpers.append((note, f"{m['marks']}{name} : {kind}\n{m['un'] or ''}{rows}"))
            continue
        al = re.match(rf"(?:\({ID} : tie\.({ID})\)|tie\.({ID}))(?: (?:invariant|decreases)-\S+)* → tie\.({ID})[^→]*\Z", m["type"].strip())
        if al and f.place(al[1] or al[2]) is None and f.place(al[3]) is not None:
            # a place that today's checker does not make: what stands for it is known
            t.views[name] = (None, f.place(al[3]))
            continue
        if al and f.place(al[1] or al[2]) is not None and f.place(al[3]) is not None:
            at = f.place(al[1] or al[2])
            lhs, rhs = re.split(r"\s=(?=\s)", m["body"], maxsplit=1)
            p = words(lhs)[1]
            got = t.place_of(rhs.strip(), {p: Alias(p, ("place", at), at)})
            if got is not None:
                t.views[name] = (p, f.place(al[3]))
                continue
        hp = re.match(rf"tie\.({ID})((?: (?:invariant|decreases)-\S+)*)\s+→ (.*)\Z", m["type"].strip(), re.S)
        if hp and f.place(hp[1]) is not None:
            at = f.place(hp[1])
            t.helpers[name] = at
            new = f.new_place(at)
            t.imports.add(new)
            rows = turn_rows(m["body"], name, [at], f, t, [])
            helpers.append((note, f"{m['marks']}{name} : {new} → {hp[3]}\n{m['un'] or ''}{rows}"))
            continue
        helpers.append((note, t.term(code, {}).rstrip() + "\n"))
        if "tie." in code:
            said.append("tie left in " + name)
    for k, arg in enumerate(given):
        if k >= len(needs) or k in answers:
            continue
        if arg.startswith("(") and closing(arg, 0) == len(arg):
            lam = arg[1:-1].strip()
            m = re.match(rf"λ ({ID})((?: {ID})*)\. ?", lam)
            if m:
                bodytext = lam[m.end() :].strip()
                if bodytext in TRIVIAL:
                    continue
                scope = {m[1]: Alias("c", ("goal", needs[k][1]), f.goal_place(k))}
                term = t.term(bodytext, scope)
                extra = "".join(" " + it for it in m[2].split() if it != "κs")
                answers[k] = ("", f"pub {needs[k][1]} : goal.{needs[k][1]}\n{needs[k][1]} c{extra} =\n    {clause_record(term, needs[k][1], f)}\n")
                continue
        if arg in t.answers:
            continue
        answers[k] = ("", f"pub {needs[k][1]} : goal.{needs[k][1]}\n{needs[k][1]} = {t.term(arg, {})}\n")
    said += t.said
    return {"head": head, "uses": uses, "invariants": invariants, "helpers": helpers, "answers": answers, "imports": t.imports}, said


def aligned(given, needs, typed):
    """The answers in step with the goals: those that asked only for a search are left out where today's checker settles the goal by itself."""
    from itertools import combinations

    more = len(given) - len(needs)
    if more < 0:
        return given
    easy = [k for k, it in enumerate(given) if re.fullmatch(r"\(λ c(?: κs)?\. (?:search rules|omega arith|refl|tt)\)", it)]
    best = None
    for out in combinations(easy[:24], more):
        left = [it for k, it in enumerate(given) if k not in out]
        hits = sum(1 for it, (old, _) in zip(left, needs) if it in typed and alike(typed[it]).endswith(alike(old)))
        hits += sum(1 for it, (old, _) in zip(left, needs) if it.startswith("(λ") and (" κs." in it.split("\n")[0]) == bool(re.search(r"-requires(-\d+)?$", old)))
        # a range that is passed to a call is asked right before what the call requires
        hits += sum(0.5 for k in out if k + 1 < len(given) and (" κs." in given[k + 1].split("\n")[0] or re.search(r"-requires", typed.get(given[k + 1], ""))))
        if best is None or hits > best[0]:
            best = (hits, left)
    return best[1] if best else given


def clause_record(term, goal, f):
    """An answer that is a tuple, for a goal of several clauses: a record with their names."""
    names = f.t.get("asked", {}).get(next((old for old, new in f.t["needs"] if new == goal), goal))
    if not names:
        return term
    names = [it for it in names]
    lets, rest = split_lets(term)
    rest = rest.strip()
    got = rest
    out = []
    for k in range(len(names) - 1):
        if got.startswith("(") and closing(got, 0) == len(got):
            ps = parts(got[1:-1])
            if len(ps) == 2:
                out.append(ps[0])
                got = ps[1]
                continue
            if len(ps) == len(names) - k:
                out += ps
                got = None
                break
        return lets + by_projection(got, names[k:], out, names)
    if got is not None:
        out.append(got)
    return lets + "record { " + "; ".join(f"{n} = {e}" for n, e in zip(names, out)) + " }"


def atom(term):
    return term if re.fullmatch(rf"{ID}(\.{ID})*", term) or term.startswith("(") and closing(term, 0) == len(term) else f"({term})"


def by_projection(term, left, done, names):
    if re.match(r"(omega|search|grind|cc|simp|rw)(?![\w-])", term):
        # the same tactic for each clause, with the clause's own part of what it hands on
        ws = words(term)
        tuple_ = len(ws) > 2 and ws[-1].startswith("(") and len(parts(ws[-1][1:-1])) == 2 and ws[0] in ("rw", "simp")
        fields = [f"{n} = {e}" for n, e in zip(names, done)]
        rest = ws[-1] if tuple_ else None
        for k, n in enumerate(left):
            if rest is None:
                fields.append(f"{n} = {term}")
                continue
            ps = parts(rest[1:-1]) if rest.startswith("(") else [rest]
            if k < len(left) - 1 and len(ps) == 2:
                fields.append(f"{n} = {' '.join(ws[:-1])} {atom(ps[0])}")
                rest = ps[1]
            else:
                fields.append(f"{n} = {' '.join(ws[:-1])} {atom(rest)}")
        return "record { " + "; ".join(fields) + " }"
    fields = [f"{n} = {e}" for n, e in zip(names, done)]
    for k, n in enumerate(left):
        fields.append(f"{n} = (r" + ".1" * k + (".0" if k < len(left) - 1 else "") + ")")
    fields = [re.sub(r"\((r[.01]*)\)$", r"\1", it) for it in fields]
    return f"let r = {term} in record {{ " + "; ".join(fields) + " }"


def split_lets(term):
    i = 0
    while True:
        m = re.compile(r"\s*let\b").match(term, i)
        if not m:
            return term[:i] + (" " if i and not term[:i].endswith((" ", "\n")) else ""), term[i:]
        j = let_end(term, m.end())
        i = j + 2


def turn_rows(body, name, at, f, t, outer):
    """The equations of a helper whose parameters of places are `at`."""
    rows, out = [], []
    for line in body.split("\n"):
        if re.match(rf"{re.escape(name)}(\s|$)", line):
            rows.append([line])
        elif rows:
            rows[-1].append(line)
    for row in rows:
        text = "\n".join(row)
        lhs, rhs = re.split(r"\s=(?=\s)", text, maxsplit=1)
        ps = words(lhs)[1:]
        scope = dict(outer)
        for p, place in zip(ps, at):
            if place is not None:
                scope[p] = Alias(p, ("place", place), place)
        out.append(lhs + " =" + t.term(rhs, scope))
    return "\n".join(out).rstrip() + "\n"


def turn_answer(m, name, goal, place, f, t, said):
    body = m["body"]
    rows = [line for line in body.split("\n") if re.match(rf"{re.escape(name)}\s", line)]
    if len(rows) != 1:
        said.append(f"{name} has {len(rows)} equations")
    lhs, rhs = re.split(r"\s=(?=\s)", body, maxsplit=1)
    ps = words(lhs)[1:]
    scope = {}
    if ps:
        scope[ps[0]] = Alias("c", ("goal", goal), place)
    where = ""
    w = re.search(r"^  where\n", rhs, re.M)
    if w:
        where = t.term(rhs[w.start() :], scope)
        rhs = rhs[: w.start()].rstrip()
    extra = " ".join(it for it in ps[1:] if it != "κs")
    term = t.term(rhs.strip(), scope)
    un = m["un"] or ""
    return f"pub {goal} : goal.{goal}\n{un}{goal} c{' ' + extra if extra else ''} =\n    {clause_record(term, goal, f)}\n{where}"


def turn_invariant(m, name, f, t, said):
    kind, _, tail = m["type"].strip()[4:].partition("-")
    loops = f.t["loops"]
    which = None
    for k, ((old, new), names) in enumerate(loops):
        if alike(old) == alike(tail.split()[0]):
            which = k
    if which is None:
        said.append("no loop for " + name)
        which = 0
    (old, new), names = loops[which]
    changed = f.t["changed"][which]
    lhs, rhs = re.split(r"\s=(?=\s)", m["body"], maxsplit=1)
    ps = words(lhs)[1:]
    to = [f"l.initial.{n}" if c else f"l.{n}" for n, c in zip(names, changed)] + [f"l.{n}" for n, c in zip(names, changed) if c]
    if len(ps) > len(to):
        said.append(f"{name}: {len(ps)} parameters for {len(to)} names")
    swap = dict(zip(ps, to))

    def sub(text, swap):
        out, i = [], 0
        while i < len(text):
            w = re.compile(ID).match(text, i)
            if w:
                word = w[0]
                if word.startswith("λ"):
                    k = re.compile(r"\.\s").search(text, i).start()
                    bound = set(re.findall(ID, text[i + 1 : k]))
                    out.append(text[i : k + 1])
                    out.append(sub(text[k + 1 :], {a: b for a, b in swap.items() if a not in bound}))
                    return "".join(out)
                label = re.match(r"\s+=\s", text[w.end() :]) and re.search(r"[{;]\s*$", text[:i])
                out.append(swap[word] if word in swap and not label and (i == 0 or text[i - 1] != ".") else word)
                i = w.end()
                continue
            out.append(text[i])
            i += 1
        return "".join(out)

    un = m["un"] or ""
    return f"abbrev pub {kind}-{new} : goal.{kind}-{new}\n{un}{kind}-{new} l = {sub(rhs.strip(), swap)}\n"


def turn_module(code, t, f, said):
    """A section of helpers over a place."""
    m = re.match(r"module _ (.*?)\swhere\n", code, re.S)
    params = m[1]
    body = code[m.end() :]
    places, kept = [], []
    for group in words(params):
        p = re.match(rf"\(({ID}) : (.*)\)\Z", group, re.S)
        pl = re.match(rf"tie\.({ID})", p[2]) if p else None
        at = f.place(pl[1]) if pl else None
        if at is not None:
            t.imports.add(f.new_place(at))
            kept.append(f"({p[1]} : {f.new_place(at)})")
            places.append((p[1], at))
        else:
            kept.append(t.term(group, {q: Alias(q, ("place", a), a) for q, a in places}))
            places.append((None, None))
    if len(places) > 1 and any(a is not None for _, a in places[1:]):
        said.append("section over " + params[:80])
    scope = {n: Alias(n, ("place", at), at) for n, at in places if at is not None}
    if not scope:
        return f"module _ {' '.join(kept)} where\n" + t.term(body, {}).rstrip() + "\n"
    lines = body.split("\n")
    local = set()
    dedent = [line[2:] if line.startswith("  ") else line for line in lines]
    out = []
    for block in declarations("\n".join(dedent)):
        k = re.match(r"(?:--[^\n]*\n|\n)*", block)
        note, text = k[0].strip("\n"), block[k.end() :]
        if not text.strip():
            continue
        d = re.match(rf"((?:abbrev |unfoldable |pub )*)({ID}) : tie\.({ID})[^\n]*\n\2 = (.*)\Z", text, re.S)
        if d and f.place(d[3]) is not None and t.place_of(d[4].strip(), scope) is not None:
            got = t.place_of(d[4].strip(), scope)
            got = Alias(got.base, got.at, f.place(d[3]))
            scope[d[2]] = got
            t.views[d[2]] = (places[0][1], got.place)
            continue
        for n in re.findall(rf"^\s*(?:(?:abbrev|unfoldable|pub) )*({ID}) :(?=\s)", text, re.M):
            if places[0][1] is not None:
                t.helpers[n] = places[0][1]
                local.add(n)
        hidden = {n: t.helpers.pop(n) for n in local if n in t.helpers}
        new = t.term(text, scope).rstrip()
        t.helpers.update(hidden)
        if "tie." in new:
            said.append("tie left: " + new[:60])
        out.append((note + "\n" if note else "") + new)
    for n in list(scope):
        pass
    text = "\n\n".join(out)
    if not text.strip():
        return ""
    return f"module _ {' '.join(kept)} where\n" + "\n".join("  " + line if line.strip() else line for line in text.split("\n")) + "\n"


RAW = re.compile(rf"not-(?:true|false) _ ((?:{ID}\.)+(?:{ID}\.)*?)(true|false)-raw(?![\w-])")


def plain_tests(text):
    """What the older files turned round by hand, the checker states now."""
    return RAW.sub(lambda m: m[1] + m[2], text)


def in_order(answers):
    """The answers, each below those that it cites."""
    name = {k: re.match(r"pub (\S+) :", b)[1] for k, (_, b) in answers.items()}
    done, out = set(), []

    def add(k):
        if k in done:
            return
        done.add(k)
        for other in sorted(answers):
            if other != k and re.search(rf"(?<![\w.'-]){re.escape(name[other])} [(c]", answers[k][1]):
                add(other)
        out.append(answers[k])

    for k in sorted(answers):
        add(k)
    return out


DROPPED = re.compile(r"Statement\.\{statement\}|\.Tie as tie|Author\.Rules\.\{rules\}")


def main():
    names, old, crate, *only = sys.argv[1:]
    table = json.load(open(names))
    cname = os.path.basename(os.path.abspath(crate))
    root = os.path.dirname(os.path.dirname(os.path.abspath(crate)))
    contracts = labels(root)
    for path in sorted(glob.glob(f"{old}/**/Proof.antt", recursive=True)):
        fn = os.path.relpath(os.path.dirname(path), old)
        if only and fn not in only:
            continue
        key = f"Rattle-{cname}-proofs.{fn.replace('/', '.')}.Lts"
        if key not in table:
            print(f"{fn}: not in names.json")
            continue
        t = table[key]
        f = Function(fn, t, contracts.get(f"{cname}::{fn.replace('/', '::')}"), contracts)
        try:
            got, said = turn_file(path, fn, f)
        except Exception as e:
            print(f"{fn}: {type(e).__name__} {e}")
            if os.environ.get("RAISE"):
                raise
            continue
        if got is None:
            print(f"{fn}: {said}")
            continue
        base = f"{crate}/proofs/{fn}"
        os.makedirs(base, exist_ok=True)
        if os.path.exists(f"{base}/Proof.antt"):
            os.remove(f"{base}/Proof.antt")
        uses = [u for u in got["uses"] if not DROPPED.search(u)]
        uses = [re.sub(r"use borrow\.Author\.Rules\.\{rules\}", "", u) for u in uses]
        mod = f"Rattle.{cname}.proofs.{fn.replace('/', '.')}"
        head = got["head"]
        if got["invariants"]:
            with open(f"{base}/Invariants.antt", "w") as o:
                o.write(head + "\n".join(uses) + f"\nuse {mod}.Given as goal\n\n" + "\n".join((n + "\n" if n else "") + b for n, b in got["invariants"]))
        if got["answers"] or got["helpers"]:
            with open(f"{base}/Answers.antt", "w") as o:
                imp = f"use {mod}.Goals.{{{', '.join(sorted(got['imports']))}}}\n" if got["imports"] else ""
                o.write(head + "\n".join(uses) + "\nuse Rattle.std.proofs.Common.{rules}" + f"\nuse {mod}.Goals as goal\n{imp}\n")
                o.write(plain_tests("\n".join((n + "\n" if n else "") + b for n, b in got["helpers"])))
                if got["helpers"]:
                    o.write("\n")
                o.write(plain_tests("\n".join((n + "\n" if n else "") + b for n, b in in_order(got["answers"]))))
        if said:
            print(f"{fn}: {'; '.join(dict.fromkeys(said))}")


if __name__ == "__main__":
    main()
