#!/usr/bin/env python3
"""Turns a Proof.antt that closes a Tie into Invariants.antt and Answers.antt.

usage: port_proofs.py NAMES CRATE..      NAMES: a folder with CRATE/names.json, as `rattle check --generated .. --old-names` writes it

Run once, at the top, after port.py and port_names.py. Needs become goals under their new names, answers that only said `search rules` go, the
invariants and measures of loops speak of the record of live variables, and a step is named as Rattle now names it. The rest is by hand.
"""

import glob
import json
import os
import re
import sys


def norm(name):
    return name.replace("-", "_").lower()


def by_parameter(f, step, tail):
    """`auto.1.1.0`, by place, as `auto.out`, by the callee's parameter."""
    names = f.v["params"].get(f.callees.get(step), [])
    k = 1
    while k < len(tail) and tail[k] == "1":
        k += 1
    if k < len(tail) and tail[k] == "0" and k - 1 < len(names):
        return ["new" if tail[0] == "last" else tail[0], names[k - 1]] + tail[k + 1 :]
    return tail


IDENT = r"[A-Za-z_][\w'₀-₉-]*"


def blocks(text):
    """The declarations of a file: a list of [comment lines, lines]."""
    out, comment, lines = [], [], []

    def close():
        nonlocal comment, lines
        if comment or lines:
            out.append([comment, lines])
        comment, lines = [], []

    for line in text.split("\n"):
        if line.startswith("use "):
            if lines and not lines[-1].startswith("use "):
                close()
            lines.append(line)
        elif not line.strip():
            close()
        elif line.startswith("--"):
            if lines:
                close()
            comment.append(line)
        else:
            lines.append(line)
    close()
    merged = []
    for comment, lines in out:
        inside = lines and (lines[0].startswith(" ") or not lines[0].strip())
        if inside and merged and merged[-1][1] and merged[-1][1][0].startswith("module _"):
            merged[-1][1].extend([""] + ["  " + c if not c.startswith(" ") else c for c in comment] + lines)
        else:
            merged.append([comment, lines])
    return merged


def of_module(lines):
    """The lemmas of `module _ (c : P) where`, each over c."""
    m = re.match(r"module _ \((" + IDENT + r") : (tie\.[^)]*|[A-Z]\w*)\) where$", lines[0])
    if not m:
        return None
    root, place = m.groups()
    inner, at = [], []
    for l in lines[1:] + [""]:
        if not l.strip():
            if at:
                inner.append(at)
            at = []
        elif l.startswith("  --"):
            continue
        else:
            at.append(l[2:])
    names = []
    for it in inner:
        n = re.match(r"(?:abbrev )?(" + IDENT + r") : ", it[0])
        if not n:
            return None
        names.append(n.group(1))
    made = []
    for name, it in zip(names, inner):
        text = "\n".join(it)
        text = re.sub(r"^abbrev ", "", text)
        head = len(name) + 3
        signature, rest = text[:head], text[head:]
        others = [n for n in names if n != name]

        def bare(s):
            for n in others:
                s = re.sub(r"(?<![\w'.-])" + re.escape(n) + r"(?![\w'₀-₉-])(?! =| :)", f"({n} {root})", s)
            return s

        d = re.search(r"(?m)^" + re.escape(name) + r"(?= |$)", rest)
        if not d or len(re.findall(r"(?m)^" + re.escape(name) + r"(?= )", rest)) != 1:
            return None
        sig, body = rest[: d.start()], rest[d.end() :]
        arrow = " " if re.match(r"[({]\s*[\w' ₀-₉]+ :", sig) else " → "
        made.append((name, f"{name} : ({root} : {place}){arrow}{bare(sig)}{name} {root}{bare(body)}".split("\n")))
    return made


class Function:
    def __init__(self, crate, path, names):
        v = names[f"Rattle-{crate}-proofs.{path}.Lts"]
        self.crate, self.path, self.v = crate, path, v
        self.needs = {}
        for old, new in v["needs"]:
            self.needs[norm(old)] = new
        self.steps = {}
        self.callees = {}
        self.clauses = {}
        self.places = {}
        self.arms = []
        for k, (place, _, step, callee, _) in enumerate(v["places"]):
            self.places[norm(place)] = v["places_by_name"][k]
            if step[0]:
                self.steps[norm(step[0])] = step[1]
                if callee:
                    self.callees[step[1]] = callee
                if v["clauses"][k]:
                    self.clauses[step[1]] = v["clauses"][k]["fields"]
        for arm in v["arms"]:
            if arm:
                for field, old, where in arm[2]:
                    if not field.endswith("-own"):
                        it = (norm(old), tuple(where), arm[0] + "." + field)
                        if it not in self.arms:
                            self.arms.append(it)
        self.arms.sort(key=lambda it: -len(it[1]))
        self.loops = {}
        changed = v["changed"]
        for k, (pair, variables) in enumerate(v["loops"]):
            self.loops[norm(pair[0])] = (pair[1], variables, changed[k])
        self.asked = {norm(k): w for k, w in v["asked"].items()}
        self.pre = (v.get("pre") or {}).get("fields")
        self.warnings = []

    def need(self, name):
        x = norm(name)
        for y in (x.replace("overflow_", "", 1), x.replace("nonzero_", "", 1), x):
            if y in self.needs:
                return self.needs[y]
        return None

    def fields_of(self, name):
        x = norm(name)
        for y in (x, x.replace("overflow_", "", 1)):
            if y in self.asked:
                return self.asked[y]
        return None


def pick(fields, rest):
    """`.1.0.more` by the clauses' names, right-nested."""
    n, k = len(fields), 0
    parts = re.findall(r"\.(\d+)(?![\w'])", re.match(r"(?:\.\d+(?![\w']))*", rest).group(0))
    i = 0
    while k < n - 1 and i < len(parts):
        if parts[i] == "0":
            used = i + 1
            return "." + fields[k] + "".join("." + p for p in parts[used:]) + rest[sum(len(p) + 1 for p in parts) :]
        if parts[i] != "1":
            return None
        k, i = k + 1, i + 1
    if k == n - 1:
        return "." + fields[k] + "".join("." + p for p in parts[i:]) + rest[sum(len(p) + 1 for p in parts) :]
    return None


PATH = re.compile(r"(?<![\w'.)-])(" + IDENT + r")((?:\.[\w'₀-₉-]+)+)")


def walk(f, root_names, text):
    """Paths that begin at a place, with today's names of steps."""
    # a name for a place further out stands for the place at hand, which has all its fields
    roots = {r: r for r in root_names}
    alias = re.compile(r"\blet (" + IDENT + r") = (" + IDENT + r")((?:\.before)*)\s+in\b[ ]?")
    while True:
        for m in alias.finditer(text):
            if m.group(2) in roots and (m.group(3) or m.group(2) != m.group(1)):
                roots[m.group(1)] = roots[m.group(2)]
                text = text[: m.start()] + text[m.end() :]
                break
        else:
            break
    # so does a name for what an arm of a match tells
    told = {old for old, _, _ in f.arms}
    while True:
        for m in re.finditer(r"\blet (" + IDENT + r") = (" + IDENT + r")((?:\.before)*)\.([\w'-]+)((?:\.given(?:\.\d+)*)?)\s+in\b[ ]?", text):
            if m.group(2) in roots and norm(m.group(4)) in told and m.group(1) not in roots:
                rest = text[m.end() :]
                name, full = m.group(1), m.group(2) + m.group(3) + "." + m.group(4) + m.group(5)
                if re.search(r"(?<![\w'.-])" + re.escape(name) + r"(?![\w'₀-₉.-])", rest):
                    continue
                text = text[: m.start()] + re.sub(r"(?<![\w'.-])" + re.escape(name) + r"(?=\.)", full, rest)
                break
        else:
            break
    text = re.sub(r"\n[ ]*(?=\n)", "", text)
    ensures = {}
    requires = {}

    def one(m):
        root, rest = m.group(1), m.group(2)
        parts = rest.split(".")[1:]
        if root in roots:
            top = roots[root]
            k = 0
            while k < len(parts) and parts[k] == "before":
                k += 1
            if k == len(parts):
                return top
            head, tail = parts[k], parts[k + 1 :]
            head = "requires" if head == "pre" else head
            parts[k] = head
            if head == "requires" and f.pre and tail:
                new = pick(f.pre, "".join("." + p for p in tail))
                return f"{top}.requires{new}" if new else ".".join([top] + parts[k:])
            for old, where, new in f.arms:
                if norm(head) == old and tuple(tail[: len(where)]) == where and where:
                    return top + "." + new + "".join("." + p for p in tail[len(where) :])
            step = f.steps.get(norm(head)) or (f.steps.get(norm(head[:-4])) if head.endswith("_lem") else None)
            if not step:
                return ".".join([top] + parts[k:])
            if len(tail) > 1 and tail[0] in ("auto", "new", "last"):
                tail = by_parameter(f, step, tail)
            if tail and (tail[0] == "rest" or re.match(r"keys\d+$", tail[0])) and re.match(r"in[-_]", step):
                base = re.sub(r"-\d+$", "", step)
                return ".".join([top, base, base + "-own"] + tail)
            if tail and tail[0] == "ensures" and step in f.clauses and len(tail) > 1:
                new = pick(f.clauses[step], "".join("." + p for p in tail[1:]))
                if new:
                    tail = ["ensures"] + new.split(".")[1:]
            if tail and tail[0] == "inv" and step in [l[0] for l in f.loops.values()]:
                tail[0] = "invariant"
            if tail and tail[0] in ("taken", "left") and re.search(r"^if-|-test$", step):
                tail[0] = "true" if tail[0] == "taken" else "false"
            return top + "." + ".".join([step] + tail)
        if root in ensures:
            new = pick(ensures[root], rest)
            return root + new if new else m.group(0)
        return m.group(0)

    # names for what a call ensures
    for m in re.finditer(r"\blet (" + IDENT + r") = (" + IDENT + r")((?:\.before)*)\.([\w'-]+)\.ensures\s+in\b", text):
        if m.group(2) in roots:
            step = f.steps.get(norm(m.group(4)))
            if step in f.clauses:
                ensures[m.group(1)] = f.clauses[step]
    for m in re.finditer(r"\blet (" + IDENT + r") = (" + IDENT + r")((?:\.before)*)\.requires\s+in\b", text):
        if m.group(2) in roots and f.pre:
            ensures[m.group(1)] = f.pre
    text = PATH.sub(one, text)
    for old, new in f.v["args"]:
        text = re.sub(re.escape(old.replace(" ", "")) + r"(?![\w'₀-₉])", new.replace(" ", ""), text)
    # names for steps
    for m in list(re.finditer(r"\blet (" + IDENT + r") = (?:" + "|".join(map(re.escape, set(roots.values()))) + r")\.([\w'-]+)\s+in\b", text)):
        name, step = m.groups()
        if step in [l[0] for l in f.loops.values()]:
            text = re.sub(r"(?<![\w'.-])" + re.escape(name) + r"\.inv\b", name + ".invariant", text)
        if step in f.clauses:
            text = re.sub(r"(?<![\w'.-])" + re.escape(name) + r"\.ensures((?:\.\d+(?![\w']))+)", lambda q: name + ".ensures" + (pick(f.clauses[step], q.group(1)) or q.group(1)), text)
        text = re.sub(r"(?<![\w'.-])" + re.escape(name) + r"\.((?:auto|new|last)(?:\.\d+(?![\w']))+)", lambda q: name + "." + ".".join(by_parameter(f, step, q.group(1).split("."))), text)
    for name, top in roots.items():
        if name != top:
            text = re.sub(r"(?<![\w'.-])" + re.escape(name) + r"(?![\w'₀-₉-])(?!\.\w)", top, text)
    # a test that begins with `!` now says what it says of the value
    return re.sub(r"not-(?:true|false)\s+(?:_|" + IDENT + r"(?:\.[\w'-]+)*|\([^()]*\))\s+(" + IDENT + r"(?:\.[\w'-]+)*\.(?:true|false))(?![\w'.-])", r"\1", text)


def parts_of(tuple_text):
    """`(a, b, c)` as its parts, or None."""
    t = tuple_text.strip()
    if not (t.startswith("(") and t.endswith(")")):
        return None
    depth, parts, at = 0, [], 1
    for i, ch in enumerate(t):
        if ch in "([{":
            depth += 1
        elif ch in ")]}":
            depth -= 1
            if depth == 0 and i != len(t) - 1:
                return None
        elif ch == "," and depth == 1:
            parts.append(t[at:i].strip())
            at = i + 1
    last = t[at:-1].strip()
    if last:
        parts.append(last)
    return parts if len(parts) > 1 else None


def lets(body):
    """A body as the lets before it and what is left."""
    at = 0
    head = re.compile(r"\s*let\b")
    while True:
        m = head.match(body, at)
        if not m:
            return body[:at], body[at:]
        depth, i, nested = 0, m.end(), 1
        for w in re.finditer(r"[(\[{)\]}]|(?<![\w'-])(let|in)(?![\w'-])", body[m.end() :]):
            ch = w.group(0)
            if ch in "([{":
                depth += 1
            elif ch in ")]}":
                depth -= 1
            elif depth == 0:
                nested += 1 if ch == "let" else -1
                if nested == 0:
                    i = m.end() + w.end()
                    break
        else:
            return body[:at], body[at:]
        at = i


def as_record(fields, body):
    before, last = lets(body)
    parts, rest = [], last
    for k in range(len(fields) - 1):
        p = parts_of(rest)
        if not p:
            break
        parts.append(p[0])
        rest = p[1] if len(p) == 2 else "(" + ", ".join(p[1:]) + ")"
    if len(parts) == len(fields) - 1:
        parts.append(rest.strip())
        inner = "; ".join(f"{n} = {p}" for n, p in zip(fields, parts))
        if len(inner) < 150 and "\n" not in inner:
            return f"{before} record {{ {inner} }}"
        return before + "\n    record {\n" + "".join(f"      {n} = {p};\n" for n, p in zip(fields, parts)) + "    }"
    paths = [".1" * k + (".0" if k < len(fields) - 1 else "") for k in range(len(fields))]
    if re.match(r"\s*record\s*\{", last):
        return body
    inner = "; ".join(f"{n} = whole{p}" for n, p in zip(fields, paths))
    return f"{before}\n    let whole = {last.strip()} in\n    record {{ {inner} }}"


class Helper:
    """A lemma over a place, which an answer now says within itself."""

    def __init__(self, f, comment, lines, place_types):
        text = re.sub(r"^abbrev ", "", "\n".join(lines))
        m = re.match(r"(" + IDENT + r") : ", text)
        self.ok = False
        if not m:
            return
        self.name = m.group(1)
        d = re.search(r"(?m)^" + re.escape(self.name) + r"((?: [^\s=:]+)*) =", text)
        if not d or len(re.findall(r"(?m)^" + re.escape(self.name) + r"(?: [^\s=:]+)* =", text)) != 1:
            return
        signature, body = text[m.end() : d.start()], text[d.end() :]
        self.unfolding = []
        rest = []
        for l in signature.split("\n"):
            if l.strip().startswith("unfolding"):
                self.unfolding += l.split()[1:]
            else:
                rest.append(l)
        signature = "\n".join(rest).strip()
        params = d.group(1).split()
        place = r"(?:tie\.[A-Z][\w'-]*(?: (?:invariant|decreases)-[\w'-]+)*|" + "|".join(list(map(re.escape, place_types)) + ["\\0"]) + r")"
        a = re.match(r"\((" + IDENT + r") : " + place + r"\)\s*", signature)
        b = re.match(place + r"\s*→\s*", signature)
        if a:
            root = a.group(1)
            signature = signature[a.end() :]
            signature = signature[1:].strip() if signature.startswith("→") else signature
        elif b and params:
            root = params[0]
            signature = signature[b.end() :]
        else:
            return
        if re.search(r"^\([^)]*: tie\.|" + place + r"\s*→", signature) or not params:
            return
        self.implicit = 0
        while True:
            m2 = re.match(r"((?:\([^()]*\)\s*)*)\{([^{}]*:[^{}]*)\}", signature)
            if not m2:
                break
            self.implicit += len(m2.group(2).split(":")[0].split())
            signature = m2.group(1) + "(" + m2.group(2) + ")" + signature[m2.end() :]
        if self.implicit and any(p.startswith("{") for p in params):
            params = [re.sub(r"[{}]", "", p) for p in params]
        elif self.implicit:
            params = params[:1] + ["_"] * self.implicit + params[1:]
        # one name for the place
        other = params[0]
        if other != root:
            body = re.sub(r"(?<![\w'.-])" + re.escape(other) + r"(?![\w'₀-₉-])", root, body)
        if root != "c":
            change = lambda s: re.sub(r"(?<![\w'.-])" + re.escape(root) + r"(?![\w'₀-₉-])", "c", s)
            signature, body = change(signature), change(body)
        self.type = " ".join(walk(f, ["c"], signature).split())
        self.params = params[1:]
        self.body = walk(f, ["c"], body).strip()
        self.ok = not re.search(r"tie\.", self.type + self.body)

    def let(self, indent="    "):
        lam = f"λ {' '.join(self.params)}. " if self.params else ""
        body = self.body if "\n" not in self.body else "(" + self.body + ")"
        return f"{indent}let {self.name} : {self.type} = {lam}{body} in\n"


def in_the_call(f, text):
    """Answers that the call of tie.spec gives as a lambda and not by name: pairs of a goal and its text."""
    m = re.search(r"\(tie\.spec\b", text)
    if not m:
        return []
    depth, at, args, start = 1, m.end(), [], None
    i = m.end()
    while i < len(text) and depth:
        ch = text[i]
        if ch in "([{":
            if depth == 1 and start is None:
                start = i
            depth += 1
        elif ch in ")]}":
            depth -= 1
            if depth == 1 and start is not None and text[start] == "(":
                args.append(text[start : i + 1])
                start = None
            elif depth == 0 and start is not None:
                args.append(text[start:i].strip())
        elif depth == 1:
            if ch.isspace():
                if start is not None:
                    args.append(text[start:i])
                    start = None
            elif start is None:
                start = i
        i += 1
    args = args[2 * len(f.v["loops"]) :]
    needs = [new for _, new in f.v["needs"]]
    known = {}
    for m in re.finditer(r"(?m)^(" + IDENT + r") : tie\.Need-([\w'-]+)", text):
        if f.need(m.group(2)):
            known[m.group(1)] = f.need(m.group(2))
    # by the named ones as anchors
    place = {}
    for k, a in enumerate(args):
        if a in known:
            place[k] = needs.index(known[a])
    found = []
    helpers = set(re.findall(r"(?m)^(" + IDENT + r") : \(" + IDENT + r" : (?:tie\.[A-Z]|[A-Z]\w*\))", text)) | set(re.findall(r"(?m)^(" + IDENT + r") : (?:tie\.[A-Z][^→\n]*|[A-Z]\w*) →", text))
    args = [f"(λ c. {a} c)" if a in helpers and a not in known else a for a in args]
    for k, a in enumerate(args):
        if a in known or not a.startswith("(λ") or re.fullmatch(r"\(λ c(?: κs)?\. search rules\)", a):
            continue
        left = max([j for j in place if j < k], default=-1)
        right = min([j for j in place if j > k], default=len(args))
        first = place.get(left, -1)
        last = place.get(right, len(needs))
        if right - left == last - first:
            m = re.match(r"\(λ (\S+?)(?: κs)?\. (.*)\)$", a, re.S)
            if m:
                found.append((needs[first + k - left], m.group(1), m.group(2)))
                continue
        f.warnings.append(f"an answer in the call has no goal: {a[:150]}")
    return found


def turn(crate, file, names):
    path = file.split("/proofs/")[1][: -len("/Proof.antt")].replace("/", ".")
    f = Function(crate, path, names)
    text = open(file, encoding="utf-8").read()
    module = f"Rattle.{crate}.proofs.{path}"
    uses, invariants, answers, helpers, head = [], [], [], [], []
    renamed = {}
    all_blocks = blocks(text)
    # the names of answers
    for comment, lines in all_blocks:
        if lines:
            m = re.match(r"(" + IDENT + r") : tie\.Need-([\w'-]+)", lines[0])
            if m and f.need(m.group(2)):
                renamed[m.group(1)] = f.need(m.group(2))
    # abbreviations of places
    place_types, inlined, outer = [], [], []
    first = True
    for comment, lines in all_blocks:
        if first:
            head, comment = comment, []
            first = False
        if not lines:
            helpers.append((comment, []))
            continue
        if lines[0].startswith("use "):
            uses += [l for l in lines if not re.match(r"use " + re.escape(module) + r"\.(Statement|Tie)\b", l)]
            continue
        whole = "\n".join(lines)
        if re.match(r"pub " + IDENT + r" : .*statement M", lines[0]):
            continue
        m = re.match(r"abbrev (invariant|decreases)-(" + IDENT + r") : tie\.", lines[0])
        if m:
            kind, loop = m.groups()
            new, variables, changed = f.loops[norm(loop)]
            body = "\n".join(lines[1:])
            b = re.match(kind + "-" + re.escape(loop) + r"((?: [^\s=]+)*) =(.*)", body, re.S)
            params, rest = b.group(1).split(), b.group(2)
            known = {}
            again = [v for v, c in zip(variables, changed) if c]
            for k, p in enumerate(params):
                if p == "_":
                    continue
                if k < len(variables):
                    known[p] = ("l.initial." if changed[k] else "l.") + variables[k]
                else:
                    known[p] = "l." + again[k - len(variables)]
            if len(params) != len(variables) + len(again):
                f.warnings.append(f"{loop}: {len(params)} parameters for {len(variables)} + {len(again)}")
            rest = re.sub(r"(?<![\w'.-])(" + "|".join(sorted(map(re.escape, known), key=len, reverse=True)) + r")(?![\w'₀-₉-])", lambda m: known[m.group(1)], rest) if known else rest
            invariants.append((comment, f"abbrev pub {kind}-{new} : goal.{kind}-{new}\n{kind}-{new} l ={rest}"))
            continue
        m = re.match(r"(" + IDENT + r") : tie\.Need-([\w'-]+)", lines[0])
        if m:
            name, need = m.groups()
            new = f.need(need)
            if not new:
                f.warnings.append(f"no goal for {need}")
                continue
            rest = [l for l in lines[1:]]
            unfolding = []
            while rest and rest[0].lstrip().startswith("unfolding"):
                unfolding.append(rest.pop(0))
            body = "\n".join(rest)
            roots = re.findall(r"(?m)^" + re.escape(name) + r" (" + IDENT + r")", body)
            if len(roots) == 1 and roots[0] != "c":
                body = re.sub(r"(?<![\w'.-])c(?![\w'₀-₉-])", "column", body)
                body = re.sub(r"(?<![\w'.-])" + re.escape(roots[0]) + r"(?![\w'₀-₉-])", "c", body)
                roots = ["c"]
            body = walk(f, roots or ["c"], body)
            body = re.sub(r"(?m)^" + re.escape(name) + r" (\S+) κs =", new + r" \1 =", body)
            body = re.sub(r"(?m)^" + re.escape(name) + r"(?= )", new, body)
            fields = f.fields_of(need)
            if fields:
                b = re.match(re.escape(new) + r"( [^\s=]+)* =(.*)", body, re.S)
                if b and "\n" + new + " " not in body:
                    at = b.start(2)
                    body = body[:at] + as_record(fields, body[at:])
            for other, its in renamed.items():
                if other != its and other != name:
                    body = re.sub(r"(?<=[ (])(?<!\n)" + re.escape(other) + r"(?= [a-z(])(?![\w'-])", its, body)
            answers.append((comment, "\n".join([f"pub {new} : goal.{new}"] + unfolding + [body]), new))
            continue
        # a helper
        if lines[0].startswith("module _"):
            made_of = of_module(lines)
            if made_of and re.search(r"tie\.|" + ("|".join(map(re.escape, place_types)) or "tie"), lines[0]):
                hs = [Helper(f, [], it, place_types) if not re.search(r"→ (?:tie\.[A-Z][^→]*|" + "|".join(map(re.escape, place_types + ["\\0"])) + r")" + re.escape(n) + r" |→ (?:tie\.[A-Z][^→]*|" + "|".join(map(re.escape, place_types + ["\\0"])) + r")$", it[0]) else it for n, it in made_of]
                if all(isinstance(h, list) or h.ok for h in hs):
                    for (n, it), h in zip(made_of, hs):
                        if isinstance(h, list):
                            outer.append(n)
                        else:
                            inlined.append(h)
                    continue
        a_place = r"(?:tie\.[A-Z][^→\n]*|" + "|".join(map(re.escape, place_types + ["\0"])) + ")"
        mo = re.match(r"(?:abbrev )?(" + IDENT + r") : " + a_place + " → " + a_place + r"\n\1 " + IDENT + r" = .*$", whole)
        if mo:
            outer.append(mo.group(1))
            continue
        mt = re.match(r"abbrev (" + IDENT + r") : Type 0\n\1 = tie\.", whole)
        if mt:
            place_types.append(mt.group(1))
            continue
        if re.search(r"tie\.[A-Z]", whole) or any(re.search(r"(?<![\w'.-])" + re.escape(p) + r"(?![\w'-])", lines[0]) for p in place_types):
            h = Helper(f, comment, lines, place_types)
            if h.ok:
                inlined.append(h)
                continue
        roots = re.findall(r"\((" + IDENT + r") : tie\.", whole)
        sig = re.match(r"(?:abbrev )?(" + IDENT + r") : (?:tie\.[\w'-]+|[A-Z]\w*) →", lines[0])
        if sig:
            roots += re.findall(r"(?m)^" + re.escape(sig.group(1)) + r" (" + IDENT + r")", whole)[:1]
        whole = walk(f, roots or ["c"], whole)
        answers.append((comment, whole, None))

    for goal, root, body in in_the_call(f, text):
        body = walk(f, [root], body)
        if root != "c":
            body = re.sub(r"(?<![\w'.-])" + re.escape(root) + r"(?![\w'₀-₉-])", "c", body)
        for other, its in renamed.items():
            if other != its:
                body = re.sub(r"(?<=[ (])" + re.escape(other) + r"(?= [a-z(])(?![\w'-])", its, body)
        if body.strip() in ("omega arith", "refl", "(omega arith)"):
            continue
        fields = next((f.asked[norm(old)] for old, new in f.v["needs"] if new == goal and norm(old) in f.asked), None)
        if fields:
            body = as_record(fields, " " + body)
        answers.append(([], f"pub {goal} : goal.{goal}\n{goal} c = {body.strip()}", goal))

    def places(t):
        def one(m):
            name = norm(m.group(1))
            if name.startswith("Need_"):
                new = f.need(m.group(1)[5:])
                return "goal." + new if new else m.group(0)
            return "tie." + f.places[name] if name in f.places else m.group(0)

        t = re.sub(r"tie\.([A-Z][\w'-]*)", one, t)
        for old, new in renamed.items():
            if old != new:
                t = re.sub(r"(?<![\w'.-])" + re.escape(old) + r"(?![\w'-])(?! =)(?! c =)", new, t) if old not in ("returns",) else t
        return t

    def cut(t):
        return re.sub(r"(tie\.(?:After|At|In|Then|Else|Start)[\w'-]*)((?: (?:invariant|decreases)-[\w'-]+)+)", lambda m: m.group(1) + "".join(" " + re.sub(r"(invariant|decreases)-(.*)", lambda q: q.group(1) + "-" + f.loops[norm(q.group(2))][0] if norm(q.group(2)) in f.loops else q.group(0), w) for w in m.group(2).split()), t)

    # a helper over a place, within the answers that use it
    def with_helpers(text):
        used, unfold = [], []
        todo = text
        for h in reversed(inlined):
            call = re.compile(r"(?<![\w'.-])" + re.escape(h.name) + r" c(?![\w'.-])")
            if call.search(todo):
                used.insert(0, h)
                unfold += h.unfolding
                todo += "\n" + h.body + "\n" + h.type
        if not used:
            return text
        lines = text.split("\n")
        at = next(k for k, l in enumerate(lines) if not l.startswith("pub ") and not l.startswith("--") and not l.lstrip().startswith("unfolding") and "=" in l)
        if unfold:
            k = next((k for k, l in enumerate(lines[:at]) if l.lstrip().startswith("unfolding")), None)
            if k is None:
                lines.insert(at, "unfolding " + " ".join(dict.fromkeys(unfold)))
                at += 1
            else:
                have = lines[k].split()[1:]
                lines[k] = "unfolding " + " ".join(dict.fromkeys(have + unfold))
        head_line = lines[at]
        m = re.match(r"(\S+(?: \S+)*? =)(.*)$", head_line)
        rest = "\n".join([m.group(2).strip()] + lines[at + 1 :]) if m.group(2).strip() else "\n".join(lines[at + 1 :])
        if m.group(2).strip():
            rest = "    " + rest
        text = "".join(h.let() for h in used) + rest
        for h in used:
            text = re.sub(r"(?<![\w'.-])" + re.escape(h.name) + r" c(?![\w'.-])", h.name + " _" * h.implicit, text)
            text = re.sub(r"\((" + re.escape(h.name) + r")\)", r"\1", text)
        return "\n".join(lines[:at] + [m.group(1), text])

    def flat(text):
        named = "|".join(sorted(map(re.escape, outer + ["\0"]), key=len, reverse=True))
        while True:
            new = re.sub(r"(?<=[ (])\(c\)(?=[ ).,;\n]|$)", "c", re.sub(r"\((" + IDENT + r")\)(?=\.)", r"\1", text))
            new = re.sub(r"\((?:" + named + r") (" + IDENT + r")((?:\.before)*)\)", r"\1", new)
            new = re.sub(r"(?<![\w'.-])(?:" + named + r") (" + IDENT + r")((?:\.before)*)(?![\w'])", r"\1", new)
            new = walk(f, ["c"], new)
            if new == text:
                return text
            text = new

    for h in inlined:
        h.body, h.type = flat(h.body), flat(h.type)
    answers = [(c, with_helpers(flat(t)) if n else t, n) for c, t, n in answers]

    # what the invariants cite stands with them
    cited, moved = "\n".join(t for _, t in invariants), []
    if invariants:
        while True:
            for k, (comment, t, n) in enumerate(answers):
                m = re.match(r"(?:(abbrev|data|record|unfoldable) )?(" + IDENT + r")[ :]", t)
                if n is None and m and re.search(r"(?<![\w'.-])" + re.escape(m.group(2)) + r"(?![\w'-])", cited):
                    word = (m.group(1) + " pub " if m.group(1) in ("abbrev", "unfoldable") else "pub " + m.group(1) + " " if m.group(1) else "pub ")
                    t = word + t[m.start(2) :]
                    cited += "\n" + t
                    moved.insert(0, (m.group(2), comment, t))
                    del answers[k]
                    break
            else:
                break
        moved.sort(key=lambda it: text.index("\n" + it[0]) if "\n" + it[0] in text else 0)
        invariants = [(c, t) for _, c, t in moved] + invariants

    made = {}
    if invariants:
        made["Invariants.antt"] = "\n".join(head + uses + [f"use {module}.Given as goal", ""]) + "\n" + "\n\n".join("\n".join(c + [t]) for c, t in invariants) + "\n"
    texts = [(c, t, n) for c, t, n in answers]
    if texts:
        body = "\n\n".join("\n".join(c + [t if n else places(t)]) for c, t, n in texts)
        body = cut(body)
        more = [f"use {module}.Goals as goal"]
        if "tie." in body:
            more.append(f"use {module}.Tie as tie")
        if re.search(r"(?<![\w.])(invariant|decreases)-", body) and invariants:
            named = sorted(set(re.findall(r"(?<![\w.])((?:invariant|decreases)-[\w'-]+)", body)))
            more.append(f"use {module}.Invariants.{{{', '.join(named)}}}")
        named = [n for n, _, _ in moved if re.search(r"(?<![\w'.-])" + re.escape(n) + r"(?![\w'-])", body)]
        if named:
            more.append(f"use {module}.Invariants.{{{', '.join(sorted(named))}}}")
        made["Answers.antt"] = "\n".join(head + uses + more + [""]) + "\n" + body + "\n"
    folder = os.path.dirname(file)
    for name, t in made.items():
        with open(os.path.join(folder, name), "w", encoding="utf-8") as out:
            out.write(t)
    os.remove(file)
    for w in f.warnings:
        print(f"{crate} {path}: {w}")


def main(argv):
    names_folder, crates = argv[0], argv[1:]
    for crate in crates:
        with open(os.path.join(names_folder, crate, "names.json"), encoding="utf-8") as f:
            names = json.load(f)
        for file in sorted(glob.glob(f"crates/{crate}/proofs/**/Proof.antt", recursive=True)):
            try:
                turn(crate, file, names)
            except Exception as e:  # the file stays for a person
                print(f"{file}: {type(e).__name__}: {e}")


if __name__ == "__main__":
    main(sys.argv[1:])
