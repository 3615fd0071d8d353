#!/usr/bin/env python3
"""Brings the repository's own names to the spelling of today's Rattle, once, after port.py:

    python3 /opt/rattle/port/port.py && python3 tools/respell.py

Definitions, lemmas, constructors and fields of specs/ and proofs/ are in snake case (port.py respells only those that a library spells so),
specs/Contracts.antt is specs/Clauses.antt (Rattle makes a module `contracts` itself), and the edits of must-fail/ have the same words and,
line by line, the new form of clauses. Functions of src/, exported names, strings and comments keep theirs. It stops where two names would fall together.
"""

import glob
import os
import re
import sys

TOP = os.path.dirname(os.path.dirname(os.path.abspath(__file__)))
os.chdir(sys.argv[1] if len(sys.argv) > 1 else TOP)

CRATES = sorted(os.path.basename(os.path.dirname(os.path.dirname(p))) for p in glob.glob("crates/*/src/"))
WORD = r"[^\s(){}\[\],;.:\"⌜⌝`|]+"
OPERATOR = re.compile(r"^[-◌+*/%^<>≤≡∷▹→λ×⊎∙¬↔=&|?]+$")


def read(path):
    with open(path, encoding="utf-8") as f:
        return f.read()


def write(path, text):
    with open(path, "w", encoding="utf-8") as f:
        f.write(text)


def own(path):
    return any(path.startswith(f"Rattle.{c}.") for c in CRATES)


def functions(path):
    """Whether the file is the proof of a function: what it cites is named by Rattle, and is not respelled."""
    return re.match(r"crates/\w+/proofs/[^/]+/", path) is not None


def snake(word):
    word = re.sub(r"(?<=\w)-(?=\w)", "_", word)
    if word[:1].islower():
        word = re.sub(r"(?<=[a-z0-9])([A-Z])|(?<=[A-Z])([A-Z])(?=[a-z])", lambda m: "_" + m.group().lower(), word)
    return word


def code_and_comment(line, mark):
    i = line.find(mark)
    return (line, "") if i < 0 else (line[:i], line[i:])


def lib_names(text):
    """What a file imports from the libraries."""
    names = set()
    for path, listed in re.findall(r"(?m)^ *(?:unfoldable )?(?:pub )?(?:ghost )?use ([^\s{};]+?)\.?\{([^}]*)\}", text):
        if not own(path):
            names |= {w.strip().split(" as ")[-1] for w in listed.split(",")}
    return names


DECLARED = re.compile(r"^ *(?:(?:abbrev|unfoldable|pub|data|record|ruleset|infix\w?) +)*([^\s(){}\[\],;.:]+(?: +[^\s(){}\[\],;.:]+)*) *(?:[({].*)?:(?= |$)")


def declared(text):
    names = set()
    for line in text.split("\n"):
        line, _ = code_and_comment(line, "--")
        m = DECLARED.match(line)
        if m and not line.lstrip().startswith("use "):
            names |= {w for w in m.group(1).split() if not OPERATOR.match(w)}
        m = re.match(r"^ *(?:pub )?ruleset (\S+)", line)
        if m:
            names.add(m.group(1))
    return names


# Names that would fall together with another, and what they are called. Lemmas have `_lem`, as in the library.
TOGETHER = {
    "bodies-differ": "different_bodies",
    "no-type": "type_is_none",
    "too_long": "over_long",
    "too-long": "over_long",
    "open-term": "opened_term",
    "not-a-set": "no_set",
    "in-front": "stays_in_front",
    "read_byte": "read_byte_lem",
}
for word in "at-partner body-fits body-scope groups-left own-domain spell-step state-fits states-in term-at term-bytes term-end use-of waiting-size with-group lifted-byte lifted-letter lowered-letter".split():
    TOGETHER[word] = snake(word) + "_lem"
for word in "examine-term check-file check-set write-type print-term explain-file apply-step".split():
    TOGETHER[word] = snake(word) + "_call"

# Words that stand already, as the name of a function in a path of Rattle's, and not as a definition.
MAY_STAND = set("at_tau body_scope check_files check_set former_files former_runs frame_growth group_at height_of in_term index_cell later_files later_readings later_runs letter_cell lifted_byte lifted_letter lines_in_front lowered_letter one_fact open_file parts_of put_long step_at terminals_in terms_in use_of read_byte too_long examine_term print_term write_type".split())


def clauses(text):
    """specs/Contracts.antt is specs/Clauses.antt."""
    return re.sub(r"(Rattle\.\w+\.specs)\.Contracts(?=[.\s;]|$)", r"\1.Clauses", text)


# The forms of clauses that port.py turns, for the edits, which it leaves.
def edit_line(line, respell, words, words_there):
    line = re.sub(r"Rattle·(\w+)·(specs|proofs)\.\2\.", r"Rattle.\1.\2.", line)
    line = re.sub(r"Rattle·(\w+)", r"Rattle.\1", line)
    line = clauses(line).replace("′", "'")
    line = re.sub(r"(?<=[\w')]) \.(?=[a-z])", ".", line)
    line = re.sub(r"\{ λ r\. ⌜ (.*) ⌝ \}", lambda m: "{ " + re.sub(r"\br\b", "result", m.group(1)) + " }", line)
    line = re.sub(r"⌜ (.*) ⌝", r"\1", line)
    line = re.sub(r"\(now \(?(\w+)\.entry\)\)", r"\1.old", line)
    line = re.sub(r"\(now \(?(\w+)\.exit\)\)", r"\1.new", line)
    line = re.sub(r"\(now (\w+)\)", r"\1.now", line)
    line = re.sub(r"\((\w+'?)\.(\w[\w-]*)\)", r"\1.\2", line)
    line = re.sub(WORD, lambda m: snake(m.group()) if m.group() not in words and snake(m.group()) in words_there else m.group(), line)
    return respell(line, words)


def main():
    specs = sorted(glob.glob("crates/*/specs/**/*.antt", recursive=True))
    proofs = sorted(glob.glob("crates/*/proofs/**/*.antt", recursive=True))
    lemmas = [p for p in proofs if not functions(p)]
    texts = {p: read(p) for p in specs + proofs}
    mine = set()
    for p in specs + lemmas:
        mine |= declared(texts[p])
    libs = set()
    for p in specs + proofs:
        libs |= lib_names(texts[p])
    mine = {w for w in mine if snake(w) != w and w not in libs}
    # any other word with a dash or a capital inside in specs/ and in lemmas: variables, and names of a `let`
    local = set()
    for p in specs + lemmas:
        here = lib_names(texts[p])
        for line in texts[p].split("\n"):
            line, _ = code_and_comment(line, "--")
            for w in re.findall(WORD, line):
                if not OPERATOR.match(w) and snake(w) != w and w not in here and w not in libs and w not in mine:
                    local.add(w)
    turn = {w: snake(w) for w in sorted(mine | local)}
    # names that fall together
    every = set()
    for p in specs + proofs:
        for line in texts[p].split("\n"):
            line, _ = code_and_comment(line, "--")
            every |= set(re.findall(WORD, line))
    rust = {}
    for p in sorted(glob.glob("crates/*/src/*.rt")):
        for w in re.findall(r"\b(?:fn|const|static|struct|enum|mod) ([A-Za-z_0-9]+)|^ *(?:pub )?([a-z_0-9]+): ", read(p), re.M):
            for x in w:
                if x:
                    rust.setdefault(x, set()).add(p.split("/")[1])
    back = {}
    for a, b in turn.items():
        back.setdefault(b, []).append(a)
    report = []
    for b, froms in sorted(back.items()):
        if len(froms) > 1:
            report.append(f"fall together: {froms} -> {b}")
        if b in every:
            report.append(f"there already: {froms} -> {b}")
        if b in rust:
            report.append(f"in src: {froms} -> {b} ({sorted(rust[b])})")
    if "--report" in sys.argv:
        print("\n".join(report))
        print(len(turn), "words;", len(mine), "declared")
        for a in sorted(local):
            print("local", a)
        return
    turn.update({w: t for w, t in TOGETHER.items() if w in turn or w in every})
    taken = {}
    for a, b in turn.items():
        if b in taken or (b in every and b not in turn and b not in MAY_STAND):
            sys.exit(f"{a} and {taken.get(b, b)} would fall together: {b}")
        taken[b] = a
    camel = {w for w in turn if "-" not in w and "_" not in w}

    def respell(line, words):
        return re.sub(WORD, lambda m: turn[m.group()] if m.group() in words else m.group(), line)

    for p in specs + proofs:
        words = set(turn) if not functions(p) else mine | set(TOGETHER) & set(turn)
        words -= lib_names(texts[p])
        out = []
        for line in texts[p].split("\n"):
            a, b = code_and_comment(line, "--")
            out.append(respell(a, words) + respell(b, camel))
        write(p, clauses("\n".join(out)))
    # in src/ only the imports and the clauses cite such words
    for p in sorted(glob.glob("crates/*/src/*.rt")):
        out = []
        for line in read(p).split("\n"):
            a, b = code_and_comment(line, "//")
            parts = re.split(r'("(?:[^"\\\\]|\\\\.)*")', a)
            out.append("".join(x if x.startswith('"') else respell(x, set(turn)) for x in parts) + respell(b, camel))
        write(p, clauses("\n".join(out)))
    for p in sorted(glob.glob("crates/*/must-fail/*.edit")):
        out = []
        for line in read(p).split("\n"):
            if re.match("(old|new): ", line):
                line = line[:5] + edit_line(line[5:], respell, set(turn), every)
            elif line.startswith("file: "):
                line = line.replace("specs/Contracts.antt", "specs/Clauses.antt")
            out.append(line)
        write(p, "\n".join(out))
    for p in sorted(glob.glob("crates/*/specs/Contracts.antt")):
        os.rename(p, p.replace("Contracts", "Clauses"))
    for p in sorted(glob.glob("crates/*/specs/Lib.antt")):
        write(p, re.sub(r"(?m)^((?:pub )?mod) Contracts$", r"\1 Clauses", read(p)))


main()
