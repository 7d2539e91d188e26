"""All planted bugs of the repository: of the code, of the definitions, and those written by hand."""
from functools import cache
from pathlib import Path

from body import Names
from code_edits import code_edits, kept_code
from definition_edits import Library, definition_edits, kept_definitions
from definitions import definitions
from edits import Planted, numbered, shown
from source import read_source

# Programs that are tests themselves: their output is held to a stored one, and no proof speaks of it.
TESTS = ("images_test", "worked")
# Definitions that are worked examples: each is a claim of its own, with no rule to turn.
EXAMPLES = ("worked_lines",)
HERE = Path(__file__).parent


class Repository:
    def __init__(self, root):
        self.root = root
        lines = (root / "crates.txt").read_text(encoding="utf-8").splitlines()
        listed = [line.partition(":") for line in lines if line and not line.startswith("#")]
        self.needs = {name: needs.split() for name, _, needs in listed}

    def sources(self, crate, part, suffix):
        """The texts of a crate's files of that kind, by their paths within the crate."""
        folder = self.root / "crates" / crate
        files = [p for p in sorted((folder / part).rglob(f"*{suffix}")) if p.is_file()]
        return {str(p.relative_to(folder)): p.read_text(encoding="utf-8") for p in files}

    @cache
    def contents(self, crate):
        """All that a check of the crate reads of it."""
        parts = [self.sources(crate, part, "") for part in ("src", "specs", "proofs")]
        return {name: text for part in parts for name, text in part.items()}

    def dependents(self, crate):
        """The crates that rest on this one: those first that rest on few, as they are asked soonest."""
        found = [name for name in self.needs if any(self.rests_on(name, crate))]
        return sorted(found, key=lambda name: len(self.below(name)))

    def rests_on(self, name, crate):
        for needed in self.needs[name]:
            yield needed == crate or any(self.rests_on(needed, crate))

    def below(self, crate):
        """The crates that this one rests on, and itself."""
        return [name for name in self.needs if name == crate or any(self.rests_on(crate, name))]


class Planter:
    """Plants the bugs. The names that all crates declare tell which edits can be programs."""

    def __init__(self, repository, line_cap, definition_cap):
        self.repository, self.line_cap, self.definition_cap = repository, line_cap, definition_cap
        code = [t for name in repository.needs for t in repository.sources(name, "src", ".rt").values()]
        specs = [t for name in repository.needs for t in repository.sources(name, "specs", ".antt").values()]
        self.names = Names([read_source(text) for text in code])
        self.library = Library(specs, self.names.records)

    def of_code(self, crate):
        for file, text in self.repository.sources(crate, "src", ".rt").items() if crate not in TESTS else ():
            entries = list(numbered(text, code_edits(text, self.names)))
            kept = kept_code(entries, self.line_cap) if self.line_cap else entries
            yield from (planted(crate, file, text, *entry) for entry in kept)

    def of_definitions(self, crate):
        for file, text in self.repository.sources(crate, "specs", ".antt").items() if crate not in EXAMPLES else ():
            entries = list(numbered(text, definition_edits(text, self.library)))
            kept = kept_definitions(entries, self.definition_cap) if self.definition_cap else entries
            yield from (planted(crate, file, text, *entry) for entry in kept)

    def written(self, crate):
        for path in sorted((HERE / crate).glob("*.edit")):
            yield read_written(self.repository, crate, path)

    def uncovered(self, crate):
        """The lines of code and the definitions that no bug changes."""
        folder = f"{crate}/"
        have = {(b.name.split(":")[0], int(b.name.split(":")[1])) for b in self.of_code(crate)}
        for file, text in self.repository.sources(crate, "src", ".rt").items():
            lines = text.splitlines()
            for number in sorted(code_lines(text)):
                if (folder + file, number) not in have:
                    yield f"{folder}{file}:{number} | {lines[number - 1].strip()}"
        turned = {b.place for b in self.of_definitions(crate)}
        for file, text in self.repository.sources(crate, "specs", ".antt").items():
            for d in definitions(text):
                if f"{folder}{file} {d.name}" not in turned:
                    yield f"{folder}{file}:{d.line} | {d.shape} {d.name}"

    def all(self, crate, groups):
        makers = {"code": self.of_code, "definitions": self.of_definitions, "written": self.written}
        for group in groups:
            yield from ((group, bug) for bug in makers[group](crate))


def code_lines(text):
    """The lines on which a word or a number of a function's body or of a constant stands."""
    source = read_source(text)
    ranges = [(f.first + 1, f.last) for f in source.functions] + [c[1:] for c in source.constants]
    tokens = [source.tokens[i] for first, last in ranges for i in range(first, last)]
    return {source.line_of(t.start) for t in tokens if t.kind in ("word", "number", "bytes") and t.text != "else"}


def planted(crate, file, text, line, number, edit):
    name = f"{crate}/{file}:{line}:{edit.kind}:{number}"
    return Planted(name, crate, f"{crate}/{file} {edit.place}", shown(text, edit), ((file, edit.applied(text)),))


def read_written(repository, crate, path):
    """A bug written by hand: `file:` lines, each with `old:` and `new:` pairs after it."""
    texts, pairs, file, old = dict(repository.contents(crate)), [], "", ""
    changed = set()
    for line in path.read_text(encoding="utf-8").splitlines():
        key, _, value = line.partition(": ") if ": " in line else line.partition(":")
        if key == "file":
            file = value
        elif key == "old":
            old = value
        elif key == "new":
            if texts[file].count(old) != 1:
                raise SystemExit(f"{path.relative_to(HERE)}: the old text must stand in {file} once")
            texts[file] = texts[file].replace(old, value)
            changed.add(file)
            pairs.append(f"{old.strip()} -> {value.strip() or '(left out)'}")
    files = tuple((name, texts[name]) for name in sorted(changed))
    return Planted(f"{crate}/written/{path.stem}", crate, f"{crate}/{file} {path.stem}", "; ".join(pairs), files)


def equivalents():
    """The bugs that change no outcome: their place and what they change, each with the reason."""
    found = {}
    for line in (HERE / "equivalent.txt").read_text(encoding="utf-8").splitlines():
        if line and not line.startswith("#"):
            place, _, rest = line.partition(" | ")
            change, _, reason = rest.rpartition(" | ")
            found[place, change] = reason
    return found
