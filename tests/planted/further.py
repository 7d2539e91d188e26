"""What else notices a bug that survived: the crates above, and the tests. Both run on a copy of the repository."""
import re
import shutil

from prover import Verdict, limited, run

LEFT_OUT = ("target", ".git")
TARGET = ("rlib", "inc", "stamp", "log", "bin", "obj", "print")
TESTS = (["tests/host/run"], ["tests/planner/compare", "-n", "20000"], ["tests/examples/run"])


class Copy:
    """A copy of the repository with what it has proved, in which bugs are planted one after the other."""

    def __init__(self, repository, folder, jobs):
        self.repository, self.folder, self.jobs = repository, folder, jobs
        shutil.rmtree(folder, ignore_errors=True)
        root = str(repository.root)
        shutil.copytree(root, folder, ignore=lambda at, _: LEFT_OUT if at == root else ())
        for part in TARGET:
            if (repository.root / "target" / part).exists():
                shutil.copytree(repository.root / "target" / part, folder / "target" / part)

    def put(self, crate, files):
        for file, text in files:
            (self.folder / "crates" / crate / file).write_text(text, encoding="utf-8")

    def with_bug(self, bug, ask):
        """What the question answers while the bug is planted."""
        old = self.repository.contents(bug.crate)
        self.put(bug.crate, bug.files)
        try:
            return ask(bug)
        finally:
            self.put(bug.crate, [(file, old[file]) for file, _ in bug.files])

    def upward(self, bug):
        """The first crate above that is not proved any more."""
        return self.with_bug(bug, self.first_above)

    def first_above(self, bug):
        for crate in self.repository.dependents(bug.crate):
            status, output = self.command(["rt", "check", crate])
            if status != 0:
                return Verdict("noticed", *refusal(output, crate))
        return Verdict("noticed by no crate above")

    def tests(self, bug):
        """The first test that fails: those of the crates, the programs' stored outputs, and those of tests/."""
        return self.with_bug(bug, self.first_test)

    def first_test(self, bug):
        status, output = self.command(["rt", "check"])
        if status != 0:
            return Verdict("noticed", *refusal(output, "rt check"))
        for words in TESTS:
            status, output = self.command(words)
            if status != 0:
                return Verdict("noticed", words[0], " ".join(output.split())[-160:])
        return Verdict("noticed by no test")

    def command(self, words):
        return run(words, self.folder, None, env=limited(self.jobs))


def refusal(output, crate):
    """The crate that rt names first, and why."""
    found = re.search(r"^rt: (\w+):? .*(?:NOT PROVED|FAILED|is not what|ended with status).*", output, re.M)
    return (found[1], found[0]) if found else (crate, "")
