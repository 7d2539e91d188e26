#!/usr/bin/env python3
"""Brings the repository's own definitions and lemmas to snake case and its types to camel case.

Run once at the top, after the kit's port.py:  python3 tools/respell.py [--list]
A name is turned where a specs/ or proofs/ file of this repository defines it with a dash. Names that Rattle makes
(goals, steps) and names of the library keep their dashes. Comments and strings stay as they are.
"""
import collections
import glob
import os
import re
import sys

WORD = re.compile(r"[A-Za-z0-9_'?]+(?:-[A-Za-z0-9_'?]+)+")
# names with capitals inside a word, turned by hand
OTHERS = {"tally-atMost": "tally_at_most"}
# a ghost member with a capital inside
MEMBERS = {"numberOf": "number_of"}
# lemmas whose names begin with a capital: they are no types
LEMMAS = {"PL-CT": "pl_ct", "PL-EN": "pl_en", "CT-EN": "ct_en"}


def pieces(text, comment):
    """The text cut into (part, is it code)."""
    pattern = re.compile(r'"(?:[^"\\\n]|\\.)*"|' + comment)
    at = 0
    for m in pattern.finditer(text):
        yield text[at : m.start()], True
        yield m[0], False
        at = m.end()
    yield text[at:], True


def code(text, comment):
    return "".join(p if is_code else " " for p, is_code in pieces(text, comment))


ANTT = r"(?:(?<=\s)|^)--(?=\s)[^\n]*"
RATTLE = r"//[^\n]*"


def files(ending):
    return sorted(glob.glob(f"crates/*/specs/**/*{ending}", recursive=True)
                  + glob.glob(f"crates/*/proofs/**/*{ending}", recursive=True))


def defined():
    names, goals, fields, library = set(), set(), set(), collections.defaultdict(set)
    word = WORD.pattern
    for f in files(".antt"):
        s = code(open(f).read(), ANTT)
        goals.update(m[1] for m in re.finditer(r"goal\.(?:at\.)?(" + word + ")", s))
        for m in re.finditer(r"^use Rattle\.std\.[\w.+-]*\.\{([^}]*)\}", s, re.M):
            for t in re.split(r"[,\s]+", m[1]):
                if WORD.fullmatch(t):
                    library[f].add(t)
        for line in s.split("\n"):
            m = re.match(r"^(\s*)(?:abbrev |pub |record |data |unfoldable |let |in )*(" + word + r")\s*(?:[({\[].*)?:", line)
            if m:
                names.add(m[2])
                if m[1]:
                    fields.add(m[2])
            for m in re.finditer(r"[({]((?:[^\s(){}]+ )+): ", line):
                names.update(t for t in m[1].split() if WORD.fullmatch(t))
            for m in re.finditer(r"let (" + word + ")|\\bas (" + word + ")", line):
                names.add(m[1] or m[2])
            for m in re.finditer(r"λ ([^.]*)\.", line):
                names.update(t for t in m[1].split() if WORD.fullmatch(t))
    for f in sorted(glob.glob("crates/*/src/**/*.rt", recursive=True)):
        s = code(open(f).read(), RATTLE)
        names.update(m[1] for m in re.finditer(r"\bas (" + word + ")", s))
    return names - goals, fields, library


def spelled(name):
    if name in OTHERS:
        return OTHERS[name]
    if name in LEMMAS:
        return LEMMAS[name]
    if name[0].isupper():
        return "".join(p[0].upper() + p[1:] for p in name.split("-"))
    return name.replace("-", "_")


def turned(text, table, fields, kept, comment):
    def word(m):
        name = m[2]
        if name not in table or name in kept:
            return m[0]
        # a step or a field that Rattle made
        if m[1] == "." and name not in fields:
            left = m.string[: m.start()]
            if re.search(r"(?:\bc|\bw|\bg|\bl|\bgoal|\bensures|\brequires|\bnew|\bargs|\bloop-[\w-]+|\bauto)$", left):
                return m[0]
        return m[1] + table[name]

    pattern = re.compile(r"(\.?)(" + WORD.pattern + ")")
    return "".join(pattern.sub(word, p) if is_code else p for p, is_code in pieces(text, comment))


def main():
    names, fields, library = defined()
    table = {n: spelled(n) for n in names}
    table["Verbs-apart"] = "VerbsApart"
    # the lines `old:` and `new:` of edits of definitions, too
    targets = [(f, ANTT) for f in files(".antt")]
    targets += [(f, RATTLE) for f in sorted(glob.glob("crates/*/src/**/*.rt", recursive=True))]
    edits = sorted(glob.glob("crates/*/must-fail/*.edit") + glob.glob("tests/planted/*/*.edit"))
    targets += [(f, ANTT) for f in edits]
    if "--list" in sys.argv:
        for n in sorted(table):
            print(n, table[n], "field" if n in fields else "")
        return
    ident = re.compile(r"[A-Za-z0-9_'?]+(?:-[A-Za-z0-9_'?]+)*")
    for f, comment in targets:
        before = open(f).read()
        after = turned(before, table, fields, library.get(f, set()), comment)
        for old, new in MEMBERS.items():
            after = re.sub(r"\b" + old + r"\b", new, after)
        if after == before:
            continue
        old = set(ident.findall(code(before, comment)))
        for n in old & set(table):
            if n not in library.get(f, set()) and table[n] in old:
                print(f"falls together: {f}: {n} and {table[n]}")
        open(f, "w").write(after)
    for f in glob.glob("crates/*/proofs/Verbs-apart.antt"):
        os.rename(f, f.replace("Verbs-apart", "VerbsApart"))


main()
