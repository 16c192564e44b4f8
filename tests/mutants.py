"""Try mutants (wrong bodies), several in one check, for tests/mutants.sh.

Usage: mutants.py CLONE AT_ONCE CRATE | CRATE/NAME ..
CLONE is a clean clone whose libraries are built, with what checks have proved of CRATE, if any. AT_ONCE is the number of
crates that are tried at a time. A mutant is an edit, the file crates/CRATE/mutants/NAME.edit.

The prover must leave a goal open for each edit. A check of several edits shows only that an edit is refused, by such a
goal, for these reasons:

- A proof uses only the contracts of other functions, not their bodies, unless functions call each other in a cycle. So
  an edit of a body can only leave goals of its own function open, or of its cycle.
- The functions or modules of all edits are first proved without the edits, so an open goal is caused by an edit.
- The edits of one check are in functions with different names, so the function of a goal shows which edit causes it. A
  goal of a cycle shows nothing. If a goal of a function is open that no edit changes, the result of the check is ignored.
- An error does not count as a goal if it only says that something that an edit removed is missing, or that a limit was
  reached.

An edit that is not refused in this way is tried in a check of its own, where each goal counts; so is an edit that changes
more than bodies: a constant, a type, an import. An edit that is still not refused goes to `rt must-fail`, which judges it
like CI; only this can lead to NOT REFUSED.
"""

from __future__ import annotations

import os
import re
import shutil
import subprocess
import sys
from concurrent.futures import FIRST_COMPLETED, Future, ThreadPoolExecutor, wait
from pathlib import Path
from typing import Dict, FrozenSet, Iterator, List, NamedTuple, Optional, Sequence, Tuple

MOST = 12  # the maximum number of edits in one check
REFUSED = "refused, as it must be"  # the text of `rt must-fail`

# A function: its indentation, its name, the lines of its body. A `const fn` is not one, since callers see its body.
FUNCTION = re.compile(
    r"^( *)(?:pub(?:\([^)]*\))? )?fn (\w+)(?:.*\{|.*[^;}\n]\n(?:(?:\1(?: +.*|[>)].*|where))?\n)*?\1(?:\).*)?\{)\n"
    r"((?:\1 .*\n|\n)*)\1\}\n",
    re.MULTILINE,
)
# The line before the methods of a type, which are no methods of a trait.
METHODS = re.compile(r"impl(?:<.*>)? (\w+)(?:<.*>)? \{")
# A goal without a written proof that `search` does not prove, and one whose written proof is rejected.
UNPROVED = re.compile(r"fn \S+: .*\bproofs/(\S+)/(?:Answers|Proof)\.antt; `search` did not prove `")
REJECTED = re.compile(r"(?:note: )?(?:\./)?proofs/(\S+)/(?:Answers|Proof)\.antt:\d+:\d+: error: ")
MISSING = re.compile(r"has no field|is not in scope|has no `|was not admitted|: record `[^`]*` \(nearest|: module `")
LIMIT = re.compile(r"antt ran out of|outgrew the memory limit|stopped at the step limit")
# Errors after which a check has no result: an edited file cannot be parsed, or the kept work of a library does not fit.
UNREAD = re.compile(r"^(?:\./)?(?:src|specs)/\S+:\d+:\d+: error|Run the lower steps again", re.MULTILINE)
ENDED = re.compile(r"^only=\d+ proved=\d+", re.MULTILINE)

Texts = Dict[str, str]  # by file


class Change(NamedTuple):
    file: str
    old: str
    new: str


class Edit(NamedTuple):
    """An edit, and the functions whose bodies it changes: none if it changes anything else."""

    name: str
    changes: Tuple[Change, ...]
    functions: FrozenSet[str]
    paths: FrozenSet[str]  # of the functions as a check names them, or of the modules

    def modules(self) -> FrozenSet[str]:
        """Return the modules of its files as a check names them; the name is empty if a file is not a module."""
        return frozenset(module_of(change.file) for change in self.changes)


def changes_of(edit: Path) -> Tuple[Change, ...]:
    """Return the changes of an edit as `rt must-fail` reads them."""
    changes = []
    file = old = ""
    for line in edit.read_text("utf-8", "replace").split("\n"):
        if line.startswith("file: "):
            file = line[len("file: "):].strip()
        elif line.startswith("old: "):
            old = line[len("old: "):]
        elif line.startswith("new:"):
            changes.append(Change(file, old, re.sub(r"\A ", "", line[len("new:"):])))
    return tuple(changes)


def module_of(file: str) -> str:
    found = re.fullmatch(r"src/(.+?)(?:/mod)?\.rt", file)
    return found[1].replace("/", "::") if found and found[1] not in ("lib", "main") else ""


def applied(changes: Sequence[Change], texts: Texts) -> Optional[Texts]:
    """Return the changed texts, or None if an old text does not occur exactly once in its file."""
    for file, old, new in changes:
        text = texts.get(file, "")
        if not old or text.count(old) != 1:
            return None
        texts = {**texts, file: text.replace(old, new)}
    return texts


def functions_of(changes: Sequence[Change], texts: Texts) -> Dict[str, str]:
    """Return the functions whose bodies the changes are in, with their paths; none if a change is elsewhere, or contains a
    function.
    """
    paths: Dict[str, str] = {}
    for change in changes:
        text = texts[change.file]
        start = text.index(change.old)
        end = start + len(change.old)
        found = next((it for it in FUNCTION.finditer(text) if it.start(3) <= start and end <= it.end(3)), None)
        if found is None or re.search(r"\bfn\b", change.new):
            return {}
        paths[found[2]] = path_of(found, text, module_of(change.file))
        texts = {**texts, change.file: text.replace(change.old, change.new)}
    return paths


def path_of(function: re.Match[str], text: str, module: str) -> str:
    """Return the path of a function of this module, as a check names it or at least the end of that. For a method of a trait it is
    that of the module. A check names the methods of a type by the module that declares the type.
    """
    if not function[1]:
        return f"{module}::{function[2]}"
    *_, opened = re.findall(r"^\S.*\{$|^\{$", text[: function.start()], re.MULTILINE)
    methods = METHODS.fullmatch(opened)
    if not methods:
        return module
    is_here = re.search(rf"^(?:pub(?:\([^)]*\))? )?(?:struct|enum) {methods[1]}\b", text, re.MULTILINE)
    return f"{module}::{methods[1]}::{function[2]}" if is_here else f"{methods[1]}::{function[2]}"


def batches(edits: Sequence[Edit], texts: Texts) -> Iterator[List[Edit]]:
    """Yield the edits of bodies for each check; those of one check are in functions with different names."""
    rest = [edit for edit in edits if edit.functions]
    while rest:
        batch: List[Edit] = []
        changed = texts
        for edit in rest:
            after = applied(edit.changes, changed)
            if len(batch) < MOST and after and not any(edit.functions & other.functions for other in batch):
                batch.append(edit)
                changed = after
        rest = [edit for edit in rest if edit not in batch]
        yield batch


def open_goals(output: str) -> Iterator[Tuple[str, str]]:
    """Yield the function and the line of each goal that a check left open; the function is empty in a cycle."""
    for line in output.split("\n"):
        found = UNPROVED.match(line) or REJECTED.match(line)
        if found and not MISSING.search(line) and not LIMIT.search(line):
            yield function_at(found[1].split("/")), line


def function_at(path: Sequence[str]) -> str:
    """Return the function of a path, which is its last name. In a closure it is the name after `fn`."""
    name = path[path.index("fn") + 1] if "fn" in path[:-1] else path[-1]
    return "" if name.startswith("+") else name


def refused_by(batch: Sequence[Edit], output: str) -> Dict[str, str]:
    """Return the edits of a check that are refused, each with the first open goal."""
    refused: Dict[str, str] = {}
    for function, line in open_goals(output):
        changed_by = [edit for edit in batch if len(batch) == 1 or function in edit.functions]
        if function and not changed_by:
            return {}
        for edit in changed_by:
            refused.setdefault(edit.name, f"{REFUSED}: {line[:160]}")
    return refused


class Crate:
    """A crate in a tree of its own, so that checks of several crates can run. Its files are hard links to the clone's."""

    def __init__(self, clone: Path, name: str, edits: Sequence[Path]) -> None:
        self.clone, self.name, self.paths = clone, name, {path.stem: path for path in edits}
        self.tree = clone.parent / f"tree-{name}"
        self.folder = self.tree / "crates" / name
        self.work, self.proved = self.folder / "out/incremental", self.tree / "proved"
        self.kept = clone / "crates" / name / "out/incremental"
        self.memory = memory_of(clone / "crates" / name)

    def try_all(self) -> int:
        """Try the edits, print a line for each, and return how many are refused."""
        self.link()
        edits = [edit for edit in map(self.read, self.paths.values()) if edit]
        refused = 0
        if self.is_proved(edits):
            for batch in batches(edits, self.texts(edits)):
                refused += self.print_results(self.tried(batch))
            for edit in edits:
                if edit.name in self.paths:
                    refused += self.print_results(self.tried([edit]))
            refused += self.print_results(self.tried_by_ci())
        self.print_results(dict.fromkeys(self.paths, "NOT TRIED"))
        shutil.rmtree(self.tree)
        return refused

    def link(self) -> None:
        for name in ("crates.txt", "HANDLES"):
            self.tree.mkdir(exist_ok=True)
            shutil.copy(self.clone / name, self.tree)
        left_out = shutil.ignore_patterns("must-fail", "mutants", "incremental")
        shutil.copytree(self.clone / "crates", self.tree / "crates", ignore=left_out, copy_function=os.link)
        if self.kept.is_dir():
            shutil.copytree(self.kept, self.work, copy_function=link_proved)

    def read(self, path: Path) -> Optional[Edit]:
        """Return the edit, or None if it can only be tried by `rt must-fail`."""
        changes = changes_of(path)
        edit = Edit(path.stem, changes, frozenset(), frozenset())
        if not changes or not all(edit.modules()):
            return None
        texts = self.texts([edit])
        if applied(changes, texts) in (None, texts):
            return None
        paths = functions_of(changes, texts)
        return edit._replace(functions=frozenset(paths), paths=frozenset(paths.values()) or edit.modules())

    def texts(self, edits: Sequence[Edit]) -> Texts:
        """Return the current texts of the edits' files."""
        files = {change.file for edit in edits for change in edit.changes}
        return {file: path.read_text("utf-8") for file in files for path in [self.folder / file] if path.is_file()}

    def is_proved(self, edits: Sequence[Edit]) -> bool:
        """Return whether the edits' functions are proved without the edits. The other checks start from its work."""
        status, output = self.check(edits)
        if status and self.kept.is_dir():
            shutil.rmtree(self.work, ignore_errors=True)
            status, output = self.check(edits)
        if status:
            print(f"{self.name}: not proved without edits:\n{output[-2000:]}", flush=True)
            return False
        self.work.rename(self.proved)
        return True

    def tried(self, batch: Sequence[Edit]) -> Dict[str, str]:
        """Return the edits that a check refuses, each with a goal. If a check has no result, check each half."""
        before = self.texts(batch)
        after = applied([change for edit in batch for change in edit.changes], before) or {}
        self.write(after)
        self.begin()
        status, output = self.check(batch)
        self.write(before)
        if status == 1 and ENDED.search(output) and not UNREAD.search(output):
            return refused_by(batch, output)
        half = len(batch) // 2
        return {**self.tried(batch[:half]), **self.tried(batch[half:])} if half and status else {}

    def begin(self) -> None:
        """Let the next check start from what is proved. A check replaces these files, and does not write into them."""
        shutil.rmtree(self.work, ignore_errors=True)
        shutil.copytree(self.proved, self.work, copy_function=link_proved)

    def check(self, edits: Sequence[Edit]) -> Tuple[int, str]:
        """Check the functions or modules of the edits, or all if there are none, and return the status and the output."""
        paths = sorted({path for edit in edits for path in edit.paths})
        only = [word for path in paths for word in ("--only", path)]
        return run(["rt", "check", "--jobs", "1", *only], self.folder)

    def write(self, texts: Texts) -> None:
        """Write each text to a new file, which replaces the link."""
        for file, text in texts.items():
            new = self.folder / f"{file}.new"
            new.write_text(text, "utf-8")
            os.replace(new, self.folder / file)

    def tried_by_ci(self) -> Dict[str, str]:
        """Return the result of `rt must-fail` for each remaining edit."""
        if not self.paths:
            return {}
        (self.folder / "must-fail").mkdir()
        for path in self.paths.values():
            shutil.copy(path, self.folder / "must-fail")
        self.begin()
        output = run(["rt", "must-fail", self.name], self.tree)[1]
        answers = re.findall(rf"^(?:rt: )?must-fail {self.name}/(\S+)\.edit: (.*)", output, re.MULTILINE)
        if len(answers) < len(self.paths):
            print(f"{self.name}: `rt must-fail` did not finish:\n{output[-2000:]}", flush=True)
        return dict(answers)

    def print_results(self, answers: Dict[str, str]) -> int:
        """Print the results of edits, and return how many are refused."""
        for name, answer in answers.items():
            print(f"{self.name}/{name}: {answer}", flush=True)
            self.paths.pop(name, None)
        return sum(answer.startswith(REFUSED) for answer in answers.values())


def memory_of(folder: Path) -> float:
    """Estimate the maximum memory of a check of a crate, in gigabytes, from its number of lines."""
    code, *proofs = [
        sum(path.read_bytes().count(b"\n") for path in (folder / part).rglob("*.*t"))
        for part in ("src", "specs", "proofs")
    ]
    return 1 + code / 1500 + sum(proofs) / 7500


def link_proved(one: str, other: str) -> None:
    """Link a file of proved work, and copy the lists next to it."""
    if one.endswith(".oantt"):
        os.link(one, other)
    else:
        shutil.copy2(one, other)


def run(command: Sequence[str], folder: Path) -> Tuple[int, str]:
    """Run a command and return its status and output.

    It is ended when a check was killed for lack of memory, since `rt` would then build everything.
    """
    lines = []
    with subprocess.Popen(
        command,
        cwd=folder,
        env={**os.environ, "PYTHONUNBUFFERED": "1", "RT_JOBS": "1"},
        stdin=subprocess.DEVNULL,
        stdout=subprocess.PIPE,
        stderr=subprocess.STDOUT,
        encoding="utf-8",
        errors="replace",
    ) as ran:
        for line in ran.stdout or ():
            lines.append(line)
            if line.startswith("rt: killed again"):
                ran.kill()
    return ran.returncode, "".join(lines)


def free_memory() -> float:
    """Return the gigabytes of memory that may be used: most of the free memory."""
    found = re.search(r"MemAvailable: +(\d+) kB", Path("/proc/meminfo").read_text("utf-8"))
    return 0.85 * int(found[1]) / 1e6 if found else 4


def try_crates(crates: Sequence[Crate], at_once: int) -> int:
    """Try the edits of the crates, the longest first, `at_once` crates at a time if there is enough memory."""
    waiting = sorted(crates, key=lambda crate: -crate.memory * len(crate.paths))
    running: Dict[Future[int], float] = {}
    memory, refused = free_memory(), 0
    with ThreadPoolExecutor(at_once) as pool:
        while waiting or running:
            for crate in list(waiting):
                if len(running) < at_once and (not running or crate.memory + sum(running.values()) <= memory):
                    waiting.remove(crate)
                    running[pool.submit(crate.try_all)] = crate.memory
            for ended in wait(running, return_when=FIRST_COMPLETED).done:
                del running[ended]
                refused += ended.result()
    return refused


def main() -> int:
    clone, at_once = Path(sys.argv[1]).resolve(), int(sys.argv[2])
    by_crate: Dict[str, Dict[str, Path]] = {}
    lost = 0
    for name in sys.argv[3:]:
        crate, _, edit = name.partition("/")
        found = sorted((clone / "crates" / crate / "mutants").glob(f"{edit or '*'}.edit"))
        by_crate.setdefault(crate, {}).update((str(path), path) for path in found)
        if not found:
            print(f"{name}: NOT TRIED: there is no such mutant", flush=True)
            lost += 1
    count = sum(map(len, by_crate.values()))
    crates = [Crate(clone, name, list(edits.values())) for name, edits in by_crate.items() if edits]
    refused = try_crates(crates, at_once)
    failed = count - refused + lost
    print(f"{refused} passed, {failed} failed")
    return 1 if failed else 0


if __name__ == "__main__":
    sys.exit(main())
