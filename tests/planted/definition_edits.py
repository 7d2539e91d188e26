"""Planted bugs of the definitions: all edits of a file, with the imports that they need, and which are kept."""
import re

from definition_kinds import KINDS, Rule
from definitions import definitions, words_of
from edits import Edit, grouped, spread

WEAK = ("equation", "variable", "whole", "default")  # kinds that come last


class Library:
    """What the definitions of all crates give, their records, and which library module a name is imported from."""

    def __init__(self, texts, code_records):
        self.modules, self.results = {}, {}
        self.records = {name: as_logic(record) for name, record in code_records.items()}
        for text in texts:
            for module, names in re.findall(r"^use ([A-Za-z][\w.]*)\.\{(.*)\}$", text, re.M):
                self.modules.update({name.strip().strip("_"): (module, name.strip()) for name in names.split(",")})
            for d in definitions(text):
                self.results[d.name] = d.signature.split("→")[-1].strip()
                if d.shape == "record":
                    self.records[d.name] = {"." + p.label: text[p.start : p.end] for p in d.parts}


def as_logic(record):
    """The fields of a record of the code with the types that they have in the logic."""
    plain = {name: re.sub(r"\b(u\d+|usize)\b", "ℕ", of_type) for name, of_type in record.items()}
    return {"." + name: re.sub(r"\[(\w+); \w+\]", r"List \1", of_type) for name, of_type in plain.items()}


def rules_of(text, library):
    for definition in definitions(text):
        for number in range(len(definition.parts)):
            yield number, Rule(text, definition, number, library)


def definition_edits(text, library):
    """All edits of a file's definitions."""
    words = words_of(text)
    for number, rule in rules_of(text, library):
        for kind, edits in KINDS.items():
            for e in edits(rule):
                place = f"{number}.{operators_before(rule, e.start)}"
                also = imports(text, words_of(e.new) - words, library.modules)
                yield Edit(e.start, e.end, e.new, kind, rule.definition.name, place, also)


def operators_before(rule, at):
    """Which of the rule's conjuncts, alternatives or elements the place is in."""
    return sum(t.end <= at and t.text in ("×", "⊎", "∷", "++") for t in rule.all)


def imports(text, new_words, modules):
    """The edits that bring in what the file does not use yet: into a line that is there, or for its first comment."""
    found, lines = [], []
    for module, name in sorted(modules[word] for word in new_words if word in modules):
        line = re.search(rf"^use {re.escape(module)}\.\{{.*(?=\}}$)", text, re.M)
        if not line:
            lines.append(f"use {module}.{{{name}}}")
        elif not re.search(rf"[{{ ]{re.escape(name)}(,|$)", line[0]):
            found.append(Edit(line.end(), line.end(), f", {name}"))
    return (*found, Edit(0, text.index("\n"), "\n".join(lines))) if lines else tuple(found)


def kept_definitions(entries, cap):
    """At most `cap` for each definition: one for each part, or for every other of its rules if that is more."""
    kept = []
    for group in grouped(entries, lambda e: e[2].place):
        rules = {e[2].rule for e in group}
        number = max(len({part_of(rule) for rule in rules}), (len(rules) + 1) // 2)
        strong_first = sorted(group, key=lambda e: e[2].kind in WEAK)
        keys = (lambda e: part_of(e[2].rule), lambda e: e[2].rule, lambda e: e[2].kind)
        kept += spread(strong_first, min(cap, number), *keys)
    return sorted(kept, key=entries.index)


def part_of(rule):
    return rule.partition(".")[0]
