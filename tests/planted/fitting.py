"""Fits proofs to the names that changed code gives its conditions, as `if-size-lt1` and `if-size-le1`."""
import difflib
import re

MISSING = re.compile(r"has no (?:field )?`([^`]+)`.*?(?:named here are|begin alike:) (.*)")
PREFIX = re.compile(r"^(?:(?:if|then|else|returns)-)+")
ALIKE = 0.8  # how much of two names must be the same


def renamings(faults):
    """For each proof the names that it has to use in the place of those that are missing."""
    found = {}
    for place, why in faults:
        missing = MISSING.search(why)
        known = re.findall(r"`([^`]+)`", missing[2]) if missing else []
        for other in difflib.get_close_matches(missing[1], known, 1, ALIKE) if missing else ():
            found.setdefault(place.rsplit(":", 2)[0], {})[PREFIX.sub("", missing[1])] = PREFIX.sub("", other)
    return found


def fit(folder, faults):
    """Writes the names into the proofs; tells whether any changed."""
    changed = False
    for file, names in renamings(faults).items():
        text = old = (folder / file).read_text(encoding="utf-8")
        for name, other in names.items():
            text = re.sub(rf"{re.escape(name)}(?![\w-])", lambda _: other, text)
        if text != old:
            (folder / file).write_text(text, encoding="utf-8")
            changed = True
    return changed
