"""Planted bugs: their names, how they are shown, and which are kept."""
import re
from collections import Counter
from dataclasses import dataclass

SHOWN = 150  # longer lines are cut to what differs
AROUND = 40  # and so much on both sides of it


@dataclass(frozen=True)
class Edit:
    """A text from `start` up to `end` that becomes `new`.

    `place` is the function or definition that it stands in, `rule` the part of a definition; `also` has further edits
    that it needs, as imports.
    """

    start: int
    end: int
    new: str
    kind: str = ""
    place: str = ""
    rule: str = ""
    also: tuple = ()

    def applied(self, text):
        for edit in sorted((self, *self.also), key=lambda e: -e.start):
            text = text[: edit.start] + edit.new + text[edit.end :]
        return text


@dataclass(frozen=True)
class Planted:
    """A planted bug: `files` has the new texts of the files of the crate that it changes."""

    name: str
    crate: str
    place: str
    shown: str
    files: tuple


def shown(text, edit):
    """The lines before and after the edit, without line numbers, so that the text outlives other edits."""
    first = text.rfind("\n", 0, edit.start) + 1
    last = text.find("\n", edit.end)
    old = " ".join(text[first:last].split())
    new = " ".join((text[first : edit.start] + edit.new + text[edit.end : last]).split())
    if len(old) + len(new) > SHOWN:
        old, new = differing(old, new)
    return f"{old} -> {new or '(left out)'}"


def differing(old, new):
    """Both texts without most of what they begin and end with alike."""
    least = min(len(old), len(new))
    head = next((i for i in range(least) if old[i] != new[i]), least)
    tail = next((i for i in range(least - head) if old[-1 - i] != new[-1 - i]), least - head)
    first = old.rfind(" ", 0, max(0, head - AROUND)) + 1
    kept = max(0, tail - AROUND)
    before, after = ".. " if first else "", " .." if kept else ""
    return tuple(before + text[first : len(text) - kept].strip() + after for text in (old, new))


def numbered(text, edits):
    """Each edit with its line and its number among those of its line and kind, duplicates left out."""
    seen, count = {text}, Counter()
    for edit in edits:
        result = edit.applied(text)
        if result in seen:
            continue
        seen.add(result)
        line = text.count("\n", 0, edit.start) + 1
        count[line, edit.kind] += 1
        yield line, count[line, edit.kind], edit


def spread(entries, cap, *keys):
    """At most `cap` of the entries, such that what the keys tell of them differs as much as can be."""
    chosen, rest, counts = [], list(entries), [Counter() for _ in keys]
    while rest and len(chosen) < cap:
        best = min(rest, key=lambda e: [count[key(e)] for key, count in zip(keys, counts)])
        for key, count in zip(keys, counts):
            count[key(best)] += 1
        chosen.append(best)
        rest.remove(best)
    return chosen


def grouped(entries, key):
    groups = {}
    for entry in entries:
        groups.setdefault(key(entry), []).append(entry)
    return groups.values()


def changed_letter(literal):
    """The literal with its last letter, digit or escape changed by one."""
    escape = re.search(r"(\\x[0-9a-f])([0-9a-f])(\W*)$", literal)
    if escape:
        return literal[: escape.start(2)] + "1032547698badcfe"["0123456789abcdef".index(escape[2])] + escape[3]
    if "\\" in literal:
        return {"b'\\n'": "b'\\r'", "b'\\t'": "b'\\n'", "b'\\r'": "b'\\n'", "b'\\\\'": "b'/'"}.get(literal)
    letter = literal[-2]
    if len(literal.lstrip("b")) < 3:
        return None
    other = {"z": "y", "Z": "Y", "9": "8", '"': "!", " ": "_"}.get(letter) or chr(ord(letter) + 1)
    return literal[:-2] + other + literal[-1]
