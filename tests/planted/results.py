"""What came of the planted bugs: kept in a file as they are tried, and told in a report."""
import threading
from collections import Counter
from dataclasses import dataclass

from edits import Planted
from prover import Verdict

REFUSED = ("refused", "unfit")
# Where the first fault of a refusal is stands under `at`; a survivor may be noticed by a crate above or by a test.
COLUMNS = (
    *("planted", "refused", "at src", "at proofs", "at specs", "at generated", "unfit"),
    *("survived", "noticed above", "noticed by tests", "equivalent"),
    *("no program", "could not tell", "not run"),
)


class Results:
    """Verdicts by the bug's name, the key of what they rest on, and the stage: prover, upward or tests."""

    def __init__(self, path):
        self.path, self.known, self.lock = path, {}, threading.Lock()
        path.parent.mkdir(parents=True, exist_ok=True)
        for line in path.read_text(encoding="utf-8").splitlines() if path.exists() else ():
            name, key, stage, *verdict = line.split("\t")
            self.known[name, key, stage] = Verdict(*verdict)

    def get(self, bug, key, stage="prover"):
        return self.known.get((bug.name, key, stage))

    def add(self, bug, key, verdict, stage="prover"):
        fields = (bug.name, key, stage, verdict.what, verdict.at, verdict.why.replace("\t", " "))
        with self.lock, self.path.open("a", encoding="utf-8") as file:
            file.write("\t".join(fields) + "\n")
            self.known[bug.name, key, stage] = verdict


@dataclass(frozen=True)
class Row:
    """A bug with all that is known of it; `reason` is why it changes no outcome, where it is named as such."""

    group: str
    bug: Planted
    verdict: Verdict
    upward: Verdict
    tests: Verdict
    reason: str

    def fate(self):
        """The column that the bug counts in."""
        if self.verdict.what != "survived":
            return self.verdict.what
        if self.reason:
            return "equivalent"
        if self.upward.what == "noticed":
            return "noticed above"
        return "noticed by tests" if self.tests.what == "noticed" else "survived"

    def columns(self):
        at = [f"at {self.verdict.at}"] if self.verdict.what in REFUSED else []
        return ["planted", self.fate(), *at]

    def line(self):
        told = self.fate()
        if self.verdict.what in REFUSED:
            told += f", {self.verdict.why}"
        for further in (self.upward, self.tests):
            told += f", {further.at}" if further.what == "noticed" else f", {further.what}" if further.what else ""
        return f"{self.bug.name} | {self.bug.shown} | {told}"


class Report:
    """All bugs with their verdicts, as a table of counts and a line for each."""

    def __init__(self, bugs, key_of, results, reasons):
        nothing = Verdict("")
        self.rows = []
        for group, bug in bugs:
            first, *further = (results.get(bug, key_of(bug), stage) for stage in ("prover", "upward", "tests"))
            told = [first or Verdict("not run"), *(verdict or nothing for verdict in further)]
            self.rows.append(Row(group, bug, *told, reasons.get((bug.place, bug.shown), "")))

    def of(self, *fates):
        return [row for row in self.rows if row.fate() in fates]

    def text(self):
        parts = ["# Planted bugs", "", *self.table(), ""]
        parts += section("Survived", [row.line() for row in self.of("survived")])
        parts += section("Noticed elsewhere", [row.line() for row in self.of("noticed above", "noticed by tests")])
        parts += section("Change no outcome", [f"{row.line()} | {row.reason}" for row in self.of("equivalent")])
        parts += section("Named as changing no outcome, and refused", [row.line() for row in self.contradictions()])
        parts += section("All", [row.line() for row in self.rows])
        return "\n".join(parts)

    def table(self):
        counts = {}
        for row in self.rows:
            for place in ((row.bug.crate, row.group), ("all", row.group)):
                counts.setdefault(place, Counter()).update(row.columns())
        yield "| crate | of | " + " | ".join(COLUMNS) + " |"
        yield "|---" * (len(COLUMNS) + 2) + "|"
        for (crate, group), count in sorted(counts.items(), key=lambda place: (place[0][0] == "all", place[0])):
            yield f"| {crate} | {group} | " + " | ".join(str(count[c]) for c in COLUMNS) + " |"

    def contradictions(self):
        """What is refused though it is named; the same change may stand in a function twice, and survive once."""
        survived = {(row.bug.place, row.bug.shown) for row in self.of("equivalent")}
        named = [row for row in self.rows if row.reason and row.verdict.what in REFUSED]
        return [row for row in named if (row.bug.place, row.bug.shown) not in survived]

    def open_rows(self):
        """What still asks for an answer."""
        return self.of("survived", "could not tell") + self.contradictions()


def section(title, lines):
    return [f"## {title}", "", *lines, ""] if lines else []
