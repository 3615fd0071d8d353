#!/usr/bin/env python3
"""Turns the Proof.antt of functions that answer named goals into Invariants.antt and Answers.antt, by the names that `rt names OUT` lists:

    rt names /tmp/names && python3 tools/turn_proofs.py /tmp/names [CRATE..]

An answer that is only `search rules` goes, since the check tries that and more. What cannot be turned is named, and left as it is.
"""

import glob
import json
import os
import re
import sys

TOP = os.path.dirname(os.path.dirname(os.path.abspath(__file__)))


def norm(s):
    s = s.replace("-", "_")
    for a, b in (("overflow_", ""), ("nonzero_", ""), ("slice_bounds_", "part_"), ("offset_bounds_", "mul_"), ("Copy_", "copy_")):
        if s.startswith(a):
            s = b + s[len(a):]
    return re.sub("_(lem|call)$", "", s)


def path_of(p):
    """'crates/walk/proofs/a/f/Proof.antt' -> 'a.f'"""
    return ".".join(p.split("/proofs/", 1)[1].split("/")[:-1])


class Function:
    def __init__(self, listed):
        self.needs = listed["needs"]
        self.asked = listed["asked_at"]
        self.places = {}
        for old, parent, (field, new), callee, extra in listed["places"]:
            self.places.setdefault(old, (parent, field, new))
        self.loops = listed["loops"]
        self.changed = listed["changed"]

    def chain(self, place):
        out = []
        while place is not None and place in self.places:
            parent, field, new = self.places[place]
            out.append((field, new))
            place = parent
        return out


def turn_paths(term, chain, said, roots=None):
    """c(.before)*.FIELD by the names of today, where c stands at the end of the chain."""
    roots = dict(roots or {"c": 0})

    def one(m):
        root = m.group(1)
        depth = roots[root] + m.group(2).count(".before")
        field = m.group(3)
        if field is None:
            return m.group()
        at = chain[depth] if depth < len(chain) else None
        if at and norm(at[0]) == norm(field):
            return f"c.{at[1]}"
        if norm(field) == "type_inv":
            return "c.type_inv"
        if field in ("args", "requires", "ranges", "type_inv", "auto", "lifetimes", "utf8"):
            return f"c.{field}"
        fits = [new for old, new in chain if norm(old) == norm(field)]
        fits = fits or [new for old, new in chain if re.sub(r"\\d+$", "", norm(old)) == re.sub(r"\\d+$", "", norm(field))]
        if len(set(fits)) == 1:
            return f"c.{fits[0]}"
        if field[0].isdigit():
            return m.group()
        said.append(f"{m.group()} (there: {at}; chain {[x[0] for x in chain]})")
        return m.group()

    # aliases: let NAME = c.before.before in
    for m in re.finditer(r"let (\w+) = (c)((?:\.before)*) in", term):
        roots[m.group(1)] = m.group(3).count(".before")
    names = "|".join(sorted(map(re.escape, roots), key=len, reverse=True))
    return re.sub(rf"(?<![\w.'-])({names})((?:\.before)*)(?:\.(?!before\b)([A-Za-z0-9_'-]+))?(?![\w'-])", lambda m: one(m) if (m.group(2) or m.group(3)) else m.group(), term)


def blocks(text):
    """The head (comments and imports) and the declarations, each with its name and its lines."""
    lines = text.rstrip("\n").split("\n")
    head, rest = [], []
    i = 0
    while i < len(lines) and (not lines[i].strip() or re.match(r"--|use |  |}", lines[i])):
        head.append(lines[i])
        i += 1
    cur = None
    for l in lines[i:]:
        m = re.match(r"^(?:(?:pub|abbrev|unfoldable) )*([^\s:]+) :(?: |$)", l)
        if m and not l.startswith(" "):
            cur = [m.group(1), [l]]
            rest.append(cur)
        elif cur is None:
            head.append(l)
        elif l.startswith("--") or re.match(r"^(module|data|record|pub data|pub record|ruleset|mutual)\b", l):
            cur = [None, [l]]
            rest.append(cur)
        else:
            cur[1].append(l)
    return head, rest


def invariant(f, k, body, name):
    (old, new), names = f.loops[k]
    changed = f.changed[k]
    m = re.match(rf"^{re.escape(name)}((?: \S+)*) =(.*)$", body, re.S)
    args = m.group(1).split()
    want = list(names) + [n for n, c in zip(names, changed) if c]
    if len(args) != len(want):
        return None, f"{name}: {args} for {want}"
    to = {}
    for i, (a, n) in enumerate(zip(args, want)):
        if i < len(names):
            to[a] = f"l.initial.{n}" if changed[i] else f"l.{n}"
        else:
            to[a] = f"l.{n}"
    text = m.group(2)
    pat = "|".join(sorted(map(re.escape, to), key=len, reverse=True))
    text = re.sub(rf"(?<![\w.'₀-])({pat})(?![\w'₀-])", lambda m: to[m.group(1)], text) if to else text
    return text, None


def turn(path, listed, said):
    text = open(path, encoding="utf-8").read()
    crate = path.split("/crates/")[1].split("/")[0]
    fn = path_of(path)
    if "Tie as tie" not in text:
        said.append(f"{path}: walks by hand")
        return False
    f = Function(listed)
    head, decls = blocks(text)
    by_need = {norm(old): i for i, (old, new) in enumerate(f.needs)}
    keep, answers, invs, local = [], [], [], []
    trouble = []
    for name, lines in decls:
        body = "\n".join(lines).rstrip()
        if name is None:
            local.append(body)
            continue
        if re.search(r"-spec$|_spec$", name) and "statement" in lines[0]:
            continue
        m = re.match(r"^abbrev (invariant|decreases)-(loop\S*) : tie\.", lines[0])
        if m:
            k = [i for i, l in enumerate(f.loops) if norm(l[0][0]) == norm(m.group(2))]
            if not k:
                trouble.append(f"no loop {m.group(2)} in {[l[0] for l in f.loops]}")
                continue
            k = k[0]
            new = f.loops[k][0][1]
            unf = [l for l in lines[1:] if l.startswith("unfolding")]
            rest = "\n".join(l for l in lines[1:] if not l.startswith("unfolding")).rstrip()
            t, bad = invariant(f, k, rest, name)
            if bad:
                trouble.append(bad)
                continue
            invs.append(f"abbrev pub {m.group(1)}-{new} : goal.{m.group(1)}-{new}\n" + "".join(u + "\n" for u in unf) + f"{m.group(1)}-{new} l ={t}")
            continue
        m = re.match(r"^(\S+) : tie\.Need-(\S+)", lines[0])
        if m:
            i = by_need.get(norm(m.group(2)))
            if i is None:
                trouble.append(f"no goal for {m.group(2)}: {[n[0] for n in f.needs]}")
                continue
            new = f.needs[i][1]
            chain = f.chain(f.asked[i][0])
            unf = [l for l in lines[1:] if l.startswith("unfolding")]
            rest = "\n".join(l for l in lines[1:] if not l.startswith("unfolding")).rstrip()
            mm = re.match(rf"^{re.escape(name)} c( κs)? =(.*)$", rest, re.S)
            if not mm:
                trouble.append(f"{name}: not one clause")
                continue
            term = mm.group(2)
            if mm.group(1) and "κs" in term:
                trouble.append(f"{name} uses κs")
            if term.strip() == "search rules" and not unf:
                continue
            bad = []
            term = turn_paths(term, chain, bad)
            trouble += [f"{new}: {b}" for b in bad]
            answers.append((new, name, f"pub {new} : goal.{new}\n" + "".join(u + "\n" for u in unf) + f"{new} c ={term}"))
            continue
        local.append(body)
    # answers that cite one another by the old names of goals
    text_of_answers = "\n\n".join(local + [a for _, _, a in answers])
    names_old = {old: new for new, old, _ in answers}
    comments = [l for l in head if l.startswith("--")]
    uses = "\n".join(l for l in head if l.strip() and not l.startswith("--"))
    uses = re.sub(r"(?m)^use Rattle\.\S+\.(Tie|Statement|Reads|Lts|Met|Kinds)\b.*\n?", "", uses + "\n").rstrip("\n")
    dirname = os.path.dirname(path)
    me = f"Rattle.{crate}.proofs.{fn}"

    def needed(u, t):
        out = []
        for l in re.split(r"\n(?=use )", u):
            m = re.match(r"^use (\S+?)\.\{([^}]*)\}$", l.replace("\n", " "))
            if not m:
                m2 = re.match(r"^use \S+ as (\S+)$", l)
                if not m2 or re.search(rf"(?<![\w'-]){re.escape(m2.group(1))}\.", t):
                    out.append(l)
                continue
            names = [w.strip() for w in m.group(2).split(",")]
            kept = []
            for w in names:
                n = w.split(" as ")[-1]
                if "◌" in n:
                    parts = [x for x in n.split("◌") if x]
                    if all(x in t for x in parts):
                        kept.append(w)
                elif re.search(rf"(?<![\w'-]){re.escape(n)}(?![\w'-])", t):
                    kept.append(w)
            if kept:
                out.append(f"use {m.group(1)}.{{{', '.join(kept)}}}")
        return out

    wrote = []
    if invs:
        t = "\n\n".join(invs)
        wrote.append(("Invariants.antt", "\n".join(comments + needed(uses, t) + [f"use {me}.Given as goal", ""]) + "\n" + t + "\n"))
    if answers:
        t = text_of_answers
        wrote.append(("Answers.antt", "\n".join(comments + needed(uses, t) + [f"use {me}.Goals as goal", ""]) + "\n" + t + "\n"))
    for n, t in wrote:
        with open(os.path.join(dirname, n), "w", encoding="utf-8") as o:
            o.write(t)
    os.remove(path)
    if not wrote:
        try:
            os.rmdir(dirname)
        except OSError:
            pass
    said += [f"{path}: {t}" for t in trouble]
    return True


def main():
    names, crates = sys.argv[1], sys.argv[2:]
    said = []
    n = 0
    for p in sorted(glob.glob(os.path.join(TOP, "crates/*/proofs/**/Proof.antt"), recursive=True)):
        crate = p.split("/crates/")[1].split("/")[0]
        if crates and crate not in crates:
            continue
        listed = json.load(open(os.path.join(names, "crates", crate, "names.json")))
        key = f"Rattle-{crate}-proofs.{path_of(p)}.Lts"
        if key not in listed:
            said.append(f"{p}: no names listed")
            continue
        n += turn(p, listed[key], said)
    print("\n".join(said))
    print(n, "turned")


main()
