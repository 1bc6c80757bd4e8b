#!/usr/bin/env python3
"""Spells the repository's own antt names as the kit spells its own: words in snake case, types and modules in upper camel case.

usage: python3 tools/respell.py [--table] [--rows FILE]     at the top of the repository, once, right behind port.py

A name turns if a file of specs/ or proofs/ declares it: `twoWords` and `two-words` become `two_words`. It turns in .antt files and in the
clauses and `ghost use` lines of .rt files, and in the code of README.md and docs/. What Rattle names stays: goals, steps and their fields.
A lemma that would get the name of a function gets the ending _lem.
--table prints the rows, old and new, and --rows takes them from a file.
"""
import collections
import glob
import os
import re
import sys

TOKEN = re.compile(r"[^\s(){}.;,@\"«»\[\]`]+")
QUIET = re.compile(r'"(?:[^"\\\n]|\\.)*"|(?<![^\s(){}.;,@"«»])--[^\n]*|\{-.*?-\}', re.S)
DECLARED = re.compile(r"(?m)^[ \t]*(?:[|] *)?(?:(?:abbrev|unfoldable|pub|private|let|where|mutual) +)*((?:[^\s:(){},]+, )*[^\s:(){},]+)(?: *\{[^{}\n]*\})* :(?= |$)")
# Constructors that share a line, as `one two : T`.
SHARED = re.compile(r"(?m)^[ \t]+(?:pub )?([a-z][\w']*(?: [a-z][\w']*)+) : (?=[A-Z(])")
WORDS = re.compile(r"[a-z]\w*(?:[-'][\w']+)*|[A-Z]\w*-[\w'-]+")
# Lemmas whose spelling a function takes, each with the crates whose files have it: they get the ending _lem first.
LEMMAS = {
    "bytes_left": "headings",
    "depth_is": "moves",
    "first_cell": "comparison",
    "first_kind": "headings",
    "head_step": "calculus agreement",
    "in_order": "orders",
    "no_line": "lookup inclusion",
    "no_lines": "theorems page_rows headings",
    "no_step": "heads",
    "number_is": "noting meanings",
    "past_word": "symbols reader",
    "row_fits": "checking",
    "step_is": "sides",
    "step_right": "reader",
    "too_large": "widths reduction",
}
# Functions that had the new spelling already.
FUNCTIONS = ("closed_in", "code_of", "is_type", "line_at", "line_of")
GENERATED = re.compile(r"^(Need|After|Lts|Goes|Array|At|Past|In|Cell)-")


def in_snake_case(name):
    name = re.sub(r"(?<=[a-z0-9])([A-Z]+)(?=[A-Z][a-z]|[-_']|$)", lambda m: "_" + m[1].lower(), name) if name[0].islower() else name
    parts = name.split("-")
    out = []
    for part in parts:
        if part[:1].islower():
            part = re.sub(r"(?<=[a-z0-9])[A-Z]", lambda m: "_" + m[0].lower(), part)
            part = re.sub(r"_([A-Z])", lambda m: "_" + m[1].lower(), part)
        elif part.isupper():
            part = part.lower()
        out.append(part)
    return "_".join(out)


def code(text):
    return QUIET.sub(lambda m: re.sub(r"[^\n]", " ", m[0]), text)


def of_a_function(path):
    """Whether a file of proofs/ is the proof of a function, whose names Rattle reads."""
    return "/proofs/" in path and os.path.basename(path) in ("Proof.antt", "Answers.antt", "Invariants.antt")


def collect():
    names = collections.Counter()
    for path in glob.glob("crates/*/specs/**/*.antt", recursive=True) + glob.glob("crates/*/proofs/**/*.antt", recursive=True):
        with open(path, encoding="utf-8") as f:
            text = code(f.read())
        for m in DECLARED.finditer(text):
            for name in m[1].split(", "):
                if of_a_function(path) and not (name.endswith("-spec") or not "-" in name):
                    continue
                names[name] += 1
        if not of_a_function(path):
            names.update(name for m in SHARED.finditer(text) for name in m[1].split(" "))
    return names


LIBRARY = re.compile(r"(?m)^ *(?:ghost )?(?:pub )?use (?!Rattle\.(?!std\b))[^\s;{]+?\.?\{([^;}]*)\}")


def borrowed(text):
    """The names that a file takes from the libraries."""
    return {it.split(" as ")[0] for m in LIBRARY.finditer(text) for it in m[1].split(", ")}


def without(rows, kept):
    return {a: b for a, b in rows.items() if a not in kept} if kept else rows


def table():
    """The new spelling of each name. A lemma `two-words` beside a function `twoWords` or `two_words` gets the ending _lem."""
    names, rows = collect(), {}
    plain = {in_snake_case(it) for it in names if "-" not in it}
    for name in names:
        if not WORDS.fullmatch(name) or GENERATED.match(name):
            continue
        new = in_snake_case(name)
        if "-" in name and new in plain and (new in FUNCTIONS or new not in names):
            new += "_lem"
        if new != name:
            rows[name] = new
    return rows


def turned(text, rows, of_proofs=False):
    """In proofs/ a name with a dash behind a dot is a step's, which Rattle names."""

    def one(m):
        behind = text[m.start() - 1 : m.start()] == "."
        if of_proofs and behind and "-" in m[0] and text[m.start() - 2 : m.start() - 1] not in (")", "}"):
            head = re.search(r"([^\s(){},;«»\[\]]*)$", text[: m.start() - 1])[1]
            if head[:1].islower():
                return m[0]
        return rows.get(m[0], m[0])

    return TOKEN.sub(one, text)


def ended(path, text):
    crate = path.split("/")[1]
    for name, crates in LEMMAS.items():
        if crate in crates.split():
            text = re.sub(rf"(?<![^\s(){{}};,@«»\[\]]){name}(?![^\s(){{}}.;,@«»\[\]])", name + "_lem", text)
    return text


def in_code(text, rows, of_proofs=False):
    out, at = [], 0
    for m in QUIET.finditer(text):
        out.append(turned(text[at : m.start()], rows, of_proofs))
        if m[0].startswith('"'):
            out.append(m[0])
        else:
            out.append(re.sub(r"`[^`\n]+`", lambda s: turned(s[0], rows), m[0]))
        at = m.end()
    out.append(turned(text[at:], rows, of_proofs))
    return "".join(out)


CLAUSE = re.compile(r"(?:requires|ensures)\*?(?: \w+)? \{|ghost use [^;]*;|ghost \w+[:=] ?\{")


def in_source(text, rows):
    """Clauses and imports alone: what stands in the braces of a clause, at any depth."""
    out, at = [], 0
    while True:
        m = CLAUSE.search(text, at)
        if not m:
            break
        out.append(text[at : m.start()])
        end = m.end()
        if m[0].endswith("{"):
            depth = 1
            while depth:
                depth += {"{": 1, "}": -1}.get(text[end], 0)
                end += 1
        out.append(turned(text[m.start() : end], rows))
        at = end
    out.append(text[at:])
    return "".join(out)


def main():
    if "--rows" in sys.argv:
        with open(sys.argv[sys.argv.index("--rows") + 1], encoding="utf-8") as f:
            rows = dict(line.rstrip("\n").split("\t") for line in f)
    else:
        rows = table()
    if "--table" in sys.argv:
        for a, b in sorted(rows.items()):
            print(a, b, sep="\t")
        return
    for path in glob.glob("crates/*/specs/**/*.antt", recursive=True) + glob.glob("crates/*/proofs/**/*.antt", recursive=True):
        change(path, lambda t: in_code(t if "--rows" in sys.argv else ended(path, t), without(rows, borrowed(t)), "/proofs/" in path))
    for path in glob.glob("crates/*/src/**/*.rt", recursive=True):
        change(path, lambda t: in_source(t, rows))
    for path in ["README.md"] + glob.glob("docs/**/*.md", recursive=True):
        change(path, lambda t: re.sub(r"(?ms)^```.*?^```$|`[^`\n]+`", lambda m: turned(m[0], rows), t))


def change(path, turn):
    with open(path, encoding="utf-8") as f:
        text = f.read()
    new = turn(text)
    if new != text:
        with open(path, "w", encoding="utf-8") as f:
            f.write(new)


if __name__ == "__main__":
    main()
