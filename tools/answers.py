#!/usr/bin/env python3
"""Turns old Proof.antt files (tie.close (tie.spec ..)) into Invariants.antt and Answers.antt, by the names that `rt check --generated DIR --old-names` prints.

usage: tools/answers.py CRATE_FOLDER NAMES.json
"""
import json
import os
import re
import sys

ID = r"[A-Za-z0-9_'\-₀-₉⟨⟩]+"
PATH = re.compile(r"(?<![A-Za-z0-9_'\-.₀-₉·«])([a-z][A-Za-z0-9_']*)((?:\.%s)+)" % ID)
WORDCH = r"[A-Za-z0-9_'\-₀-₉μ]"
FLAT = {"args", "requires", "ranges", "well_formed", "type_inv", "lifetimes", "utf8"}


def norm(s):
    return s.replace("-", "_").lower()


def split_args(text):
    """The arguments of a call, by spaces at depth 0."""
    out, depth, cur = [], 0, ""
    for ch in text:
        if ch in "([{":
            depth += 1
        if ch in ")]}":
            depth -= 1
        if ch.isspace() and depth == 0:
            if cur:
                out.append(cur)
            cur = ""
        else:
            cur += ch
    if cur:
        out.append(cur)
    return out


CLAUSES = {}
SLICES = {}


def clauses(top):
    """crate::fn -> the names of its requires and of its ensures (where a kind has two or more)."""
    for crate in os.listdir(os.path.join(top, "crates")):
        src = os.path.join(top, "crates", crate, "src")
        for f in sorted(os.listdir(src)) if os.path.isdir(src) else []:
            text = open(os.path.join(src, f), encoding="utf-8").read()
            for m in re.finditer(r"\bfn (\w+)(?=[<(])(.*?)\n\s*\{\s*\n", text, re.S):
                sig = m[2]
                SLICES[f"{crate}::{m[1]}"] = re.findall(r"(\w+): &", sig)
                CLAUSES[f"{crate}::{m[1]}"] = (re.findall(r"^\s*requires (\w+) \{", sig, re.M), re.findall(r"^\s*ensures (\w+) \{", sig, re.M))


def clause_at(rest, names):
    """The path rest begins in a fact of several clauses, which were pairs within pairs: the same path by the clause's name."""
    k = at = 0
    while at < len(rest) and rest[at] == "1" and k < len(names) - 1:
        k += 1
        at += 1
    if k < len(names) - 1 and at < len(rest) and rest[at] == "0":
        at += 1
    return [names[k]] + rest[at:]


def clauses_of(callee):
    """The names of a function's requires and of its ensures; callee is crate::..::fn."""
    parts = callee.split("::")
    return CLAUSES.get(parts[0] + "::" + parts[-1], ([], []))


def tuple_parts(body):
    """The parts of a body that is one tuple, with what stands before it (lets), or None."""
    s = body.strip()
    pre = ""
    while s.startswith("let ") or re.match(r"λ [^.]*\. ", s):
        if s.startswith("let "):
            depth, i = 0, 0
            while i < len(s):
                if s[i] in "([{":
                    depth += 1
                if s[i] in ")]}":
                    depth -= 1
                if depth == 0 and re.match(r"\sin\s", s[i : i + 4]):
                    break
                i += 1
            # nested lets inside are rare
            pre += s[: i + 4].rstrip() + " "
            s = s[i + 4 :].strip()
        else:
            return None
    if not (s.startswith("(") and s.endswith(")")):
        return None
    depth, parts, cur = 0, [], ""
    for n, ch in enumerate(s):
        if ch in "([{":
            depth += 1
            if depth == 1:
                continue
        if ch in ")]}":
            depth -= 1
            if depth == 0:
                if n != len(s) - 1:
                    return None
                parts.append(cur.strip())
                return (pre, parts) if len(parts) > 1 else None
        if ch == "," and depth == 1:
            parts.append(cur.strip())
            cur = ""
        else:
            cur += ch
    return None


def as_record(body, names):
    if len(names) < 2:
        return body
    got = tuple_parts(body)
    if re.match(r"\s*(omega|search|grind|rw|simp|cc|first_of|elim)\b", body):
        return body
    if not got:
        return " let both = " + body.strip() + " in record { " + "; ".join(f"{n} = both.{i}" for i, n in enumerate(names)) + " }"
    pre, parts = got
    if parts[-1] == "":
        parts.pop()
    # more than two clauses were pairs within pairs
    while len(parts) < len(names):
        last = tuple_parts(parts[-1])
        if not last or last[0]:
            break
        parts[-1:] = [p for p in last[1] if p]
    if len(parts) != len(names):
        return body
    return " " + pre + "record { " + "; ".join(f"{n} = {v}" for n, v in zip(names, parts)) + " }"


class Fn:
    def __init__(self, j):
        self.j = j
        self.place = {}
        self.callee, self.last = {}, None
        self.arms = {pl[0]: arm for pl, arm in zip(j["places"], j["arms"])}
        for name, parent, step, callee, _ in j["places"]:
            self.place[name] = (parent, step)
            self.callee[name] = callee
        self.notes = []

    def ancestors(self, place):
        while place is not None and place in self.place:
            yield place
            place = self.place[place][0]

    def arm(self, place, rest):
        """What an arm of a match has for the old path rest, or None."""
        for p in self.ancestors(place):
            arm = self.arms.get(p)
            if not arm:
                continue
            best = None
            for field, old, path in arm[2]:
                if norm(old) == norm(rest[0]) and rest[1 : 1 + len(path)] == path and (best is None or len(path) > len(best[1])):
                    best = (field, path)
            if best:
                return [arm[0], best[0]] + rest[1 + len(best[1]) :]
        return None

    def step(self, place, name):
        for p in self.ancestors(place):
            s = self.place[p][1]
            if s and norm(s[0]) == norm(name):
                self.last = self.callee.get(p)
                return s[1]
        for p, (_, s) in self.place.items():
            if s and norm(s[0]) == norm(name):
                self.notes.append(f"step {name} not above {place}")
                return s[1]
        return None


def turn_body(fn, place, body):
    # aliases of the record of facts
    aliases = {"c": 0}
    while True:
        m = next((m for m in re.finditer(r"let ([a-z][A-Za-z0-9_']*) = ([a-z][A-Za-z0-9_']*)((?:\.before)*) in\s+", body) if m[2] in aliases), None)
        if not m:
            break
        aliases[m[1]] = aliases[m[2]] + m[3].count(".before")
        body = body[: m.start()] + body[m.end() :]

    def path(m):
        v, rest = m[1], m[2].split(".")[1:]
        if v not in aliases:
            return m[0]
        n = aliases[v]
        while rest and rest[0] == "before":
            rest.pop(0)
            n += 1
        if not rest:
            return "c" + ".before" * n
        head = rest[0]
        head = rest[0] = {"well-formed": "well_formed", "pre": "requires"}.get(head, head)
        if head == "args" and len(rest) > 1:
            rest[1] = rest[1].replace("-", "_")
        if head in FLAT and head != "requires":
            return ".".join(["c"] + rest)
        if head == "requires" and len(rest) > 1 and rest[1].isdigit() and len(fn.own[0]) > 1:
            rest[1:] = clause_at(rest[1:], fn.own[0])
        got = None if head in FLAT else fn.arm(place, rest)
        if got:
            return ".".join(["c"] + got)
        if head.endswith("_lem") and head[:-4] and fn.step(place, head) is None:
            head = rest[0] = head[:-4]
        new = None if head in FLAT else fn.step(place, head)
        if head in FLAT:
            return ".".join(["c"] + rest)
        if new is None:
            fn.notes.append(f"no step {head}")
            return m[0]
        rest = rest[1:]
        if rest[:1] == ["auto"] and fn.last:
            k = 1
            while k < len(rest) and rest[k] == "1":
                k += 1
            parts = fn.last.split("::")
            ns = SLICES.get(parts[0] + "::" + parts[-1], [])
            if k < len(rest) and rest[k] == "0" and k - 1 < len(ns):
                rest = ["auto", ns[k - 1]] + rest[k + 1 :]
        if rest[:1] == ["ensures"] and re.fullmatch(r"wrapping_(add|sub|mul)_u64(-.*)?", new) and rest[1:] != ["value"]:
            rest.insert(1, "value")
        if fn.last and len(rest) > 1 and rest[0] in ("ensures", "requires") and rest[1].isdigit():
            names = clauses_of(fn.last)[rest[0] == "ensures"]
            if len(names) > 1:
                rest[1:] = clause_at(rest[1:], names)
        return ".".join(["c", new] + rest)

    body = PATH.sub(path, body)
    # a let that holds what a call ensures
    for m in re.finditer(r"let ([a-z][A-Za-z0-9_']*) = c\.(%s)\.ensures in" % ID, body):
        c = next((fn.callee.get(p) for p, (_, s) in fn.place.items() if s and s[1] == m[2] and fn.callee.get(p)), None)
        names = clauses_of(c)[1] if c else []
        if len(names) > 1:
            body = re.sub(r"(?<![A-Za-z0-9_'\-.])%s((?:\.[01])+)" % m[1], lambda k: ".".join([m[1]] + clause_at(k[1].split(".")[1:], names)), body)
    for a, n in aliases.items():
        if a != "c":
            body = re.sub(r"(?<!%s)(?<!\.)%s(?!%s)(?!\.)" % (WORDCH, a, WORDCH), "c" + ".before" * n, body)
    return body


NOT = re.compile(r"\(?not[-_](true|false) (_|%s(?:\.%s)*|\([^()]*\)) (c\.if-not-[^ ()]+)\)?" % (ID, ID))


def finish(fn, goal, body):
    # a test of `!x` says what it says of x
    def plain(m):
        whole = m[0]
        return m[3] if whole.startswith("(") == whole.endswith(")") else ("(" if whole.startswith("(") else "") + m[3] + (")" if whole.endswith(")") else "")

    body = NOT.sub(lambda m: plain(m).replace("c.if-not-", "c.IF-not-"), body)
    # where the old fact itself was handed on
    body = re.sub(r"\bc\.if-not-[^ (),;]+\.(?:true|false)", lambda m: f"(ap not {m[0]})", body)
    body = body.replace("c.IF-not-", "c.if-not-")
    if goal.startswith("returns"):
        return as_record(body, fn.own[1])
    m = re.match(r"(.*)-requires(-|$)", goal)
    if m:
        for p, (_, s) in fn.place.items():
            c = fn.callee.get(p)
            if c and norm(m[1]) in (norm(c.split("::")[-1]), norm(s[1])):
                return as_record(body, clauses_of(c)[0])
    return body


def convert(folder, module, names):
    path = os.path.join(folder, "Proof.antt")
    text = open(path, encoding="utf-8").read()
    if "tie.close" not in text or "tie.spec" not in text:
        return "kept: no tie.close (tie.spec ..)"
    if module not in names:
        return "kept: no names"
    fn = Fn(names[module])
    crate_of = module[len("Rattle-") :].split("-proofs.")[0]
    fn.own = CLAUSES.get(crate_of + "::" + module[: -len(".Lts")].split(".")[-1], ([], []))
    j = fn.j
    lines = text.split("\n")
    # blocks: comments and uses first, then declarations parted by blank lines
    head, uses, i = [], [], 0
    while i < len(lines) and (lines[i].startswith("--") or not lines[i].strip()):
        if lines[i].strip():
            head.append(lines[i])
        i += 1
    while i < len(lines) and (lines[i].startswith("use ") or not lines[i].strip()):
        if lines[i].strip():
            uses.append(lines[i])
        i += 1
    blocks, cur = [], []
    for ln in lines[i:]:
        if ln.strip():
            cur.append(ln)
        elif cur:
            blocks.append(cur)
            cur = []
    if cur:
        blocks.append(cur)
    decls, spec = {}, None
    order = []
    for b in blocks:
        t = "\n".join(b)
        if "tie.close" in t:
            spec = t
            continue
        first = next(x for x in b if not x.startswith("--"))
        m = re.match(r"(?:abbrev |unfoldable )?(?:pub )?(%s) :" % ID.replace("'", "'"), first) or re.match(r"(?:abbrev )?(?:pub )?(\S+) :", first)
        nm = m[1] if m else None
        decls[nm] = b
        order.append(nm)
    m = re.search(r"tie\.close\s*\(\s*tie\.spec(.*)\)\s*$", spec, re.S)
    if not m:
        m2 = re.search(r"tie\.close\s+tie\.spec\s*$", spec, re.S)
        if not m2:
            return "kept: odd spec"
        args = []
    else:
        args = split_args(m[1])
    nloops = len(j["loops"])
    invs = args[: 2 * nloops]
    if not all(re.match(r"(invariant|decreases|Inv|μ)", a) for a in invs):
        invs = [a for a in args if re.match(r"(invariant|decreases|Inv|μ)-", a)]
    rest = args[len(invs) :]
    needs = j["needs"]
    out_inv, out_ans, used = [], [], set()
    msgs = []
    if len(rest) != len(needs):
        msgs.append(f"needs {len(needs)} given {len(rest)}")
    # invariants
    vars_of = {}
    for k, (lp, vs) in enumerate(j["loops"]):
        vars_of[lp[0]] = (lp[1], vs, j["changed"][k])
    loopnames = [lp for lp, _ in j["loops"]]
    for a in invs:
        b = decls.get(a)
        if b is None:
            msgs.append(f"no decl of {a}")
            continue
        used.add(a)
        kind, lname = re.match(r"(invariant|decreases|Inv|μ)-(.*)$", a).groups()
        kind = {"Inv": "invariant", "μ": "decreases"}.get(kind, kind)
        cand = [x for x in vars_of if norm(x) == norm(lname)] or ([loopnames[0][0]] if len(loopnames) == 1 else [])
        if not cand:
            msgs.append(f"no loop {lname}")
            continue
        new, vs, changed = vars_of[cand[0]]
        t = "\n".join(x for x in b if not x.startswith("--"))
        eq = t[t.index("\n") + 1 :]
        unf = ""
        if eq.startswith("unfolding"):
            unf, eq = eq.split("\n", 1)
        lhs, body = eq.split("=", 1)
        ps = lhs.split()[1:]
        ch = [v for v, c in zip(vs, changed) if c]
        want = len(vs) + len(ch)
        if len(ps) != want:
            msgs.append(f"{a}: {len(ps)} params for {want} ({vs} {changed})")
        sub = {}
        if len(ps) != want:
            for p in ps:
                base = p.rstrip("₀")
                if base in vs:
                    c = changed[vs.index(base)]
                    sub[p] = f"l.initial.{base}" if c and p != base else f"l.{base}"
            ps = []
        for p, v, c in zip(ps, vs, changed):
            if p != "_":
                sub[p] = f"l.initial.{v}" if c else f"l.{v}"
        for p, v in zip(ps[len(vs) :], ch):
            if p != "_":
                sub[p] = f"l.{v}"
        body = re.sub(r"(?<![A-Za-z0-9_'\-.₀-₉])([A-Za-zμ][A-Za-z0-9_'₀-₉]*)(?![A-Za-z0-9_'\-₀-₉])", lambda m: sub.get(m[1], m[1]), body)
        nm = f"{kind}-{new}"
        out_inv.append(f"abbrev pub {nm} : goal.{nm}\n" + (unf + "\n" if unf else "") + f"{nm} l ={body}\n")
    # answers
    at = j["asked_at"]

    byold = {norm(o): k for k, (o, _) in enumerate(needs)}
    for pos, a in enumerate(rest):
        k = pos if len(rest) == len(needs) else None
        if a.startswith("("):
            inner = a[1:-1].strip()
            m = re.match(r"λ c(?: κs)?\. ?(.*)$", inner, re.S)
            if not m:
                msgs.append(f"inline {a[:60]}")
                continue
            body = m[1]
            if re.fullmatch(r"search (rules|needs)", body.strip()):
                continue
            if k is None:
                msgs.append(f"inline at {pos} not placed: {body[:60]}")
                continue
            new = needs[k][1]
            body = finish(fn, new, turn_body(fn, at[k][0], body))
            out_ans.append(f"pub {new} : goal.{new}\n{new} c = {body}\n")
            continue
        b = decls.get(a)
        if b is None:
            msgs.append(f"no decl of {a}")
            continue
        used.add(a)
        comments = [x for x in b if x.startswith("--")]
        b = [x for x in b if not x.startswith("--")]
        if k is None:
            m = re.search(r"tie\.Need-(\S+)", b[0])
            w = norm(m[1]) if m else ""
            for cut in ("", "overflow_"):
                if cut and w.startswith(cut):
                    w = w[len(cut) :]
                if w in byold:
                    k = byold[w]
                    break
            if k is None and norm(a) in byold:
                k = byold[norm(a)]
            if k is None:
                msgs.append(f"{a} not placed")
                k_name, place = a, None
            else:
                k_name, place = needs[k][1], at[k][0]
        else:
            k_name, place = needs[k][1], at[k][0]
        t = "\n".join(b[1:])
        unf = []
        while t.startswith("unfolding"):
            u, t = t.split("\n", 1)
            unf.append(u)
        lhs, body = t.split("=", 1)
        if re.search(r"\bκs\b", body):
            msgs.append(f"{a}: κs used")
        if re.fullmatch(r"\s*search (rules|needs)", body.strip()) and not unf:
            continue
        body = finish(fn, k_name, turn_body(fn, place, body))
        out_ans.append("\n".join(comments + [f"pub {k_name} : goal.{k_name}"] + unf + [f"{k_name} c ={body}"]) + "\n")
    helpers = [decls[n] for n in order if n not in used and n is not None]
    mod = module[len("Rattle-") :]
    crate, fpath = mod.split("-proofs.", 1)
    fpath = fpath[: -len(".Lts")]
    base = f"Rattle.{crate}.proofs.{fpath}"
    keep = [u for u in uses if not re.search(r"\.(Statement|Tie)(\.| as )", u) and ".Statement" not in u]
    top = "\n".join(head) + ("\n" if head else "")
    if out_inv:
        open(os.path.join(folder, "Invariants.antt"), "w", encoding="utf-8").write(top + "\n".join(keep) + ("\n" if keep else "") + f"use {base}.Given as goal\n\n" + "\n".join(out_inv))
    body = "\n".join(["\n".join(h) + "\n" for h in helpers] + out_ans)
    if "ap not c.if" in body:
        have = " ".join(keep)
        if not re.search(r"[{ ]ap[,}]", have):
            keep = keep + ["use mathlib.Core.Path.{ap}"]
        if not re.search(r"[{ ]not[,}]", have):
            keep = keep + ["use mathlib.Core.Bool.{not}"]
    if out_ans or helpers:
        open(os.path.join(folder, "Answers.antt"), "w", encoding="utf-8").write(("" if out_inv else top) + "\n".join(keep) + ("\n" if keep else "") + f"use {base}.Goals as goal\n\n" + body)
    os.remove(path)
    return "; ".join(msgs + fn.notes) or "ok"


def main():
    folder, names = sys.argv[1], json.load(open(sys.argv[2]))
    crate = os.path.basename(os.path.normpath(folder))
    clauses(os.path.join(folder, "..", ".."))
    pre = f"Rattle-{crate}-proofs."
    only = sys.argv[3:] 
    for root, dirs, files in os.walk(os.path.join(folder, "proofs")):
        dirs.sort()
        if "Proof.antt" in files:
            rel = os.path.relpath(root, os.path.join(folder, "proofs")).replace("/", ".")
            if only and rel not in only:
                continue
            print(rel, ":", convert(root, pre + rel + ".Lts", names))


main()
