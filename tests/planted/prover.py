"""Asks the prover about a planted bug, over what it has checked of the crate before."""
import hashlib
import os
import re
import shutil
import signal
import subprocess
from dataclasses import dataclass

from definitions import definitions
from fitting import fit

# A proof names what the changed code has no more: that tells nothing of the change.
UNFIT = re.compile(r"has no .* that can be named from here|has no field")
# The lines that tell a fault, with those that go on from the first; a refusal may have only notes.
ERROR = re.compile(r"^(\S+?:\d+:\d+): error(?:\[[\w-]+\])?: (.*(?:\n  .*)*)", re.M)
NOTE = re.compile(r"^note: (\S+?:\d+:\d+): (.*)", re.M)
UNPROVED = re.compile(r"^\w+ (\S+): ((?:no proof|not proved).*)", re.M)
ROUNDS = 3  # so often a proof is fitted
TOLD = 160  # letters that are kept of a fault
TOUCHED = "rattle-last-used"  # the one file that the prover writes in place: it says when the folder was last used


@dataclass(frozen=True)
class Verdict:
    """What came of a bug; `at` is the part of the crate in which the first fault was found, `why` the fault."""

    what: str
    at: str = ""
    why: str = ""


def digest(*texts):
    return hashlib.sha256("\0".join(texts).encode()).hexdigest()[:16]


class Prover:
    def __init__(self, repository, timeout, jobs):
        self.repository, self.timeout, self.jobs = repository, timeout, jobs
        self.target = repository.root / "target"
        self.work = self.target / "planted"
        guide = subprocess.run(["rt", "doc"], capture_output=True, text=True, check=True).stdout.strip()
        self.home = os.path.dirname(os.path.dirname(guide))

    def prepare(self, crates):
        """Proves the crates as they are, and keeps what was checked of each."""
        print(f"rt check {' '.join(crates)}", flush=True)
        status, output = run(["rt", "check", *crates], self.repository.root, None, env=limited(self.jobs))
        if status != 0:
            raise SystemExit(f"{output[-2000:]}\nrt check must prove the crates as they are")
        for crate in crates:
            self.keep(crate)

    def keep(self, crate):
        """A folder of what the prover has checked of the unchanged crate, which all runs start from."""
        kept, stamp = self.kept(crate), self.work / "inc" / f"{crate}.key"
        below = [text for name in self.repository.below(crate) for text in self.repository.contents(name).values()]
        if stamp.exists() and stamp.read_text() == digest(*below):
            return
        shutil.rmtree(kept, ignore_errors=True)
        kept.mkdir(parents=True)
        if (self.target / "inc" / crate).exists():
            shutil.copytree(self.target / "inc" / crate, kept, dirs_exist_ok=True)
        status, output = self.check(crate, self.repository.root / "crates" / crate, kept)
        if status != 0:
            raise SystemExit(f"{crate} is not proved as it is:\n{output[-2000:]}")
        stamp.write_text(digest(*below))

    def kept(self, crate):
        return self.work / "inc" / crate

    def check(self, crate, folder, incremental):
        """The status and the output of one check."""
        root = next(p for p in (folder / "src" / "lib.rt", folder / "src" / "main.rt") if p.exists())
        words = [f"{self.home}/bin/rattle", "check", "--crate-name", crate, str(root)]
        words += ["--extern", f"std={self.home}/rlib/std.rlib"]
        for needed in self.repository.needs[crate]:
            words += ["--extern", f"{needed}={self.target}/rlib/{needed}.rlib"]
        words += ["-L", f"dependency={self.target}/rlib", "-L", f"dependency={self.home}/rlib"]
        words += ["--antt-project", f"{self.home}/logic/antt-project.json", "--logic-built", f"{self.home}/logic-built"]
        return run([*words, "--incremental", str(incremental)], self.repository.root, self.timeout)

    def key(self, bug):
        """What a verdict rests on: the crate and the change."""
        contents = self.repository.contents(bug.crate)
        return digest(*contents.keys(), *contents.values(), *(text for file in bug.files for text in file))

    def judge(self, bug):
        """Plants the bug in a copy of the crate, and asks. A proof that is unfit is fitted, and asked about again."""
        where = self.work / "scratch" / digest(bug.name)
        self.plant(bug, where)
        before = stats(self.kept(bug.crate))
        found, output = self.ask(bug, where)
        for _ in range(ROUNDS):
            if found.what != "unfit" or not fit(where, faults(output)):
                break
            found, output = self.ask(bug, where)
        if stats(self.kept(bug.crate)) != before:
            raise SystemExit(f"the prover wrote into {self.kept(bug.crate)}: remove it, and start again")
        shutil.rmtree(where)
        return found

    def plant(self, bug, where):
        """A copy of the crate with the bug, and of what the prover has checked."""
        shutil.rmtree(where, ignore_errors=True)
        crate = self.repository.root / "crates" / bug.crate
        for part in ("src", "specs", "proofs"):
            if (crate / part).exists():
                shutil.copytree(crate / part, where / part)
        for file, text in bug.files:
            (where / file).write_text(text, encoding="utf-8")
        shutil.copytree(self.kept(bug.crate), where / "inc", copy_function=linked)

    def ask(self, bug, where):
        """The verdict, and all that the prover says."""
        status, output = self.check(bug.crate, where, where / "inc")
        for path, name in ((f"{where}/", ""), (f"{self.repository.root}/", ""), (self.home, "KIT")):
            output = output.replace(path, name)
        log = self.work / "log" / (bug.name.replace("/", ".") + ".out")
        log.parent.mkdir(parents=True, exist_ok=True)
        log.write_text(output, encoding="utf-8")
        return verdict(status, output, dict(bug.files)), output


def linked(source, to):
    """The prover puts a new file in the place of one that it changes, so that a link keeps the old."""
    if os.path.basename(source) == TOUCHED:
        shutil.copy2(source, to)
    else:
        os.link(source, to)


def stats(folder):
    """What tells whether a file of the folder was written to."""
    files = (entry for entry in folder.rglob("*") if entry.is_file() and entry.name != TOUCHED)
    return {str(f): (f.stat().st_mtime_ns, f.stat().st_size) for f in files}


def limited(jobs):
    """The environment in which rt uses so many processors."""
    return {**os.environ, "RT_JOBS": str(jobs)}


def run(words, folder, timeout, **more):
    """The status and the output of a command; none where the time is over."""
    words = ["nice", "-n", "10", *words]
    told = {"stdout": subprocess.PIPE, "stderr": subprocess.STDOUT, "encoding": "utf-8", "errors": "replace"}
    process = subprocess.Popen(words, cwd=folder, start_new_session=True, **told, **more)
    try:
        output = process.communicate(timeout=timeout)[0]
        return process.returncode, output
    except BaseException as stopped:
        os.killpg(process.pid, signal.SIGKILL)
        process.wait()
        if isinstance(stopped, subprocess.TimeoutExpired):
            return None, "the time is over"
        raise


def verdict(status, output, files):
    """What the prover's words come to."""
    if status == 0:
        return Verdict("survived")
    at, why = first_fault(output)
    told = f"{at}: {why}"[:TOLD]
    if status not in (1, 2):
        return Verdict("could not tell", "", told)
    if status == 2 or not re.search(r"^logic=not-proved", output, re.M):
        return Verdict("no program", "", told)
    if any(is_ill_formed(files, *fault) for fault in faults(output)):
        return Verdict("no program", "", told)
    if why.startswith("no proof") and "a bug in rattle" in why:
        return Verdict("could not tell", "", told)
    part = at.partition("/")[0]
    part = part if part in ("src", "proofs", "specs") else "generated"
    return Verdict("unfit" if UNFIT.search(why) else "refused", part, told)


def faults(output):
    """The faults that are errors: where each is, and what it is."""
    return [(found[1], " ".join(found[2].split())) for found in ERROR.finditer(output)]


def first_fault(output):
    """The first fault, be it an error, a note or a function without a proof."""
    for fault in faults(output):
        return fault
    found = NOTE.search(output) or UNPROVED.search(output)
    return (found[1], found[2]) if found else ("", " ".join(output.split())[-TOLD:])


def is_ill_formed(files, place, why):
    """Whether the fault is one of a turned definition itself, or of its imports, and none of a proof beside it."""
    path, line, _ = place.rsplit(":", 2)
    text = files.get(path, "") if path.startswith("specs/") else ""
    if not text or "not checked" in why:
        return False
    if text.splitlines()[int(line) - 1].startswith("use "):
        return True
    return any(d.line <= int(line) <= text.count("\n", 0, d.parts[-1].end) + 1 for d in definitions(text) if d.parts)
