#!/usr/bin/env python3
"""Follow README and GUIDE from top to bottom as a new user does, in a clone of the last commit, and compare what they show.

- The commands in the blocks `sh` of a document run in one shell, in the top folder of the clone. The lines of a block `text` that
  follows must be in their output, in this order. EXPECTED has what else must be there. `./try.sh --proved` is left out, since it
  takes hours, and `./install.sh` installs the program that there is.
- The commands in the blocks `console` are compared by tests/cases.py, with the program that install.sh has installed.
- The commands after "To clean up, run" leave the clone as it was.

  --root FOLDER   do this on a new machine: in this root folder, which `debootstrap --variant=minbase` made, as a user without
                  rights. If it is missing, it is made, with Python and wget, which needs root and the network. The toolchain is
                  mounted in it, and can only be read
  PROGRAM         the proved program; without it, one is built without proofs, which takes minutes

The toolchain's command `rt` must be in PATH. The last line is `N passed, M failed`; the exit status is 1 if anything failed.
"""

from __future__ import annotations

import argparse
import re
import shutil
import subprocess
import sys
import tempfile
from pathlib import Path
from typing import Dict, Iterator, List, NamedTuple, Optional, Tuple

TOP = Path(__file__).resolve().parent.parent
DOCUMENTS = ("README.md", "docs/GUIDE.md")
PROGRAM = "crates/mercator_cli/out/mercator_cli"
INSTALLED = ("python3", "wget")  # what the documents name, besides the toolchain
SECONDS = 7200  # the time limit of the commands of a document
# A heading, a block with its tag, or the commands that clean up.
PIECE = re.compile(r"^#+ (?P<heading>[^\n]*)$|^```(?P<tag>\S+)\n(?P<body>.*?)^```$|To clean up, run `(?P<cleaning>[^`]*)`", re.M | re.S)
# What a user of these documents has.
PREPARED = r"mkdir -p ~/my-site; printf '<a href=gone.html>x</a>\n' > ~/my-site/index.html"
# Lines in the output of a document's commands that no block `text` shows.
EXPECTED: Dict[str, Tuple[str, ...]] = {
    "README.md": ("broken links 1, missing pages 1, missing anchors 0", "index.html:1:9: gone.html: no such page", "installed below"),
    "docs/GUIDE.md": (),
}
COUNTED = re.compile(r"^ +(\d+) (http://\S+)$", re.M)
LISTED = re.compile(r"The last command lists (\d+) URLs")
END_OF_BLOCK = "end of block"


class Block(NamedTuple):
    """Commands of a document, and the lines that they must print, as one text for each block `text`."""

    commands: str
    shown: Tuple[str, ...]


class Machine(NamedTuple):
    """Where the commands run: a clone and the environment, in a root folder if there is one."""

    root: Optional[Path]
    home: str
    toolchain: str

    def clone(self) -> Path:
        """Return the path of the clone on this machine."""
        return Path(f"{self.root or ''}{self.home}/mercator")

    def run(self, commands: str) -> str:
        """Run commands in a shell, in the top folder of the clone, and return what they print."""
        words = ["env", "-i", f"HOME={self.home}", f"PATH={self.toolchain}/bin:/usr/local/bin:/usr/bin:/bin", "LC_ALL=C.UTF-8", "bash"]
        if self.root is not None:
            words = ["chroot", "--userspec=user:user", str(self.root), *words]
        # In such a shell `kill %1` works, and so do aliases.
        script = f"set -m; shopt -s expand_aliases; cd ~/mercator\n{commands}\n"
        ended = subprocess.run(words, input=script, stdout=subprocess.PIPE, stderr=subprocess.STDOUT, encoding="utf-8",
                               errors="replace", timeout=SECONDS)
        return ended.stdout


class Results:
    """Counts what was compared, and prints each result."""

    def __init__(self) -> None:
        self.passed = self.failed = 0

    def add(self, name: str, error: str = "") -> None:
        self.passed += not error
        self.failed += bool(error)
        print(f"{name}: {f'FAILED: {error}' if error else 'passed'}", flush=True)


def blocks_of(text: str) -> Iterator[Block]:
    """Yield the blocks `sh` of a document, and the clean-ups of the sections that have one."""
    commands, shown = "", []
    has_commands = False
    for piece in PIECE.finditer(text):
        tag, body = piece["tag"], piece["body"]
        if tag == "text" and commands:
            shown.append(body)
        elif tag == "sh" or piece["cleaning"] and has_commands:
            if commands:
                yield Block(commands, tuple(shown))
            commands, shown = body or piece["cleaning"] + "\n", []
            has_commands = tag == "sh"
        elif tag is None and piece["heading"] is not None:
            has_commands = False
    if commands:
        yield Block(commands, tuple(shown))


def adapted(commands: str, is_proved: bool) -> str:
    """Return the commands without those that prove, and with the program that there is."""
    program = PROGRAM if is_proved else '"$(tools/unproved.sh)"'
    lines = [line for line in commands.splitlines() if not line.startswith("./try.sh --proved")]
    lines = [re.sub(r"^\./install\.sh\b", f"./install.sh --program {program}", line) for line in lines]
    if not is_proved:
        lines = [line.replace(f"MERCATOR={PROGRAM}", "MERCATOR=$(tools/unproved.sh)") for line in lines]
    elif any(line.startswith("alias mercator=") for line in lines):
        lines = [line for line in lines if "tools/unproved.sh" not in line]
    return "\n".join(lines)


def follow(machine: Machine, name: str, is_proved: bool, results: Results) -> None:
    """Run the commands of a document, and compare what it shows."""
    text = (machine.clone() / name).read_text("utf-8")
    blocks = list(blocks_of(text))
    commands = [f"{adapted(it.commands, is_proved)}\necho; echo {END_OF_BLOCK}" for it in blocks]
    output = machine.run("\n".join([PREPARED, *commands]))
    outputs = output.split(f"\n{END_OF_BLOCK}\n")
    print(output, flush=True)
    results.add(f"{name}: {len(blocks)} blocks", "" if len(outputs) == len(blocks) + 1 else "its commands did not end")
    for block, printed in zip(blocks, outputs):
        for shown in block.shown:
            results.add(f"{name}: {shown.splitlines()[0]}", "" if f"\n{shown}" in f"\n{printed}\n" else f"its commands printed {printed!r}")
    for line in EXPECTED[name]:
        results.add(f"{name}: {line}", "" if line in output else "no such line")
    listed = LISTED.search(text)
    if listed:
        counts = [int(count) for count, _ in COUNTED.findall(output)]
        is_right = len(counts) == int(listed[1]) and sum(counts) <= len(counts) + 1
        results.add(f"{name}: {listed[0]}", "" if is_right else f"the numbers of each are {counts}")


def compare_cases(machine: Machine, results: Results) -> None:
    """Compare the blocks `console` of the documents, with the installed program."""
    output = machine.run(
        'PATH=$HOME/.local/bin:$PATH; mercator --version; PROGRAM=$(command -v mercator) python3 tests/cases.py --seconds 300 '
        + " ".join(DOCUMENTS))
    print(output, flush=True)
    counts = re.search(r"^(\d+) passed, (\d+) failed$", output, re.M)
    results.add("blocks `console`", "" if counts and counts[1] != "0" and counts[2] == "0" else "they differ")


def new_root(root: Path, toolchain: Path) -> str:
    """Make the root folder, if it is missing, mount the toolchain in it, and return the home of its user."""
    if not (root / "etc").is_dir():
        command = ["debootstrap", "--variant=minbase", f"--include={','.join(INSTALLED)}", "bookworm", str(root), "http://deb.debian.org/debian"]
        subprocess.run(command, check=True, stdout=subprocess.DEVNULL)
    if not (root / "home/user").is_dir():
        subprocess.run(["chroot", root, "useradd", "-m", "user"], check=True)
    # `os.path.ismount` does not see a folder of the same file system.
    mounted = {line.split()[1] for line in Path("/proc/mounts").read_text("utf-8").splitlines()}
    for folder, options in ((toolchain, ["--bind", "-o", "ro"]), (Path("/dev"), ["--bind"]), (Path("/proc"), ["--bind"])):
        place = Path(f"{root}{folder}")
        place.mkdir(parents=True, exist_ok=True)
        if str(place) not in mounted:
            subprocess.run(["mount", *options, folder, place], check=True)
    return "/home/user"


def remove_mounts(root: Path, toolchain: Path) -> None:
    for folder in (toolchain, Path("/dev"), Path("/proc")):
        subprocess.run(["umount", f"{root}{folder}"], check=False)


def clone_to(machine: Machine, program: Optional[Path]) -> None:
    """Make the clone, or renew the one of an earlier run, with the program if there is one, and give it to the user."""
    clone = machine.clone()
    if clone.is_dir():
        # What was built there is built again only if a source has changed.
        for words in (["fetch", "-q", str(TOP), "HEAD"], ["reset", "-q", "--hard", "FETCH_HEAD"], ["clean", "-fdq"]):
            subprocess.run(["git", "-c", "safe.directory=*", "-C", clone, *words], check=True)
    else:
        subprocess.run(["git", "clone", "-q", TOP, clone], check=True)
    if program is not None:
        (clone / PROGRAM).parent.mkdir(parents=True, exist_ok=True)
        shutil.copy(program, clone / PROGRAM)  # it is newer than the sources of the clone
    if machine.root is not None:
        subprocess.run(["chroot", machine.root, "chown", "-R", "user:", machine.home], check=True)


def follow_all(machine: Machine, program: Optional[Path]) -> int:
    """Follow the documents, and return the exit status."""
    results = Results()
    clone_to(machine, program)
    for name in DOCUMENTS:
        follow(machine, name, program is not None, results)
        changed = subprocess.run(
            ["git", "-c", "safe.directory=*", "-C", machine.clone(), "status", "--porcelain"], stdout=subprocess.PIPE, encoding="utf-8").stdout
        results.add(f"{name}: leaves no files", changed)
    compare_cases(machine, results)
    print(f"{results.passed} passed, {results.failed} failed")
    return 1 if results.failed else 0


def main() -> int:
    parser = argparse.ArgumentParser(description=__doc__, formatter_class=argparse.RawDescriptionHelpFormatter)
    parser.add_argument("--root", type=Path, metavar="FOLDER", help="root folder of a new machine")
    parser.add_argument("program", type=Path, nargs="?", metavar="PROGRAM", help="the proved program")
    arguments = parser.parse_args()
    command: List[str] = [it for it in (shutil.which("rt"),) if it]
    if not command:
        parser.error("the Rattle toolchain is required, and its command rt is not in PATH")
    toolchain = Path(command[0]).resolve().parent.parent
    if arguments.root is None:
        with tempfile.TemporaryDirectory(prefix="new-user-") as home:
            return follow_all(Machine(None, home, str(toolchain)), arguments.program)
    root = arguments.root.resolve()
    try:
        return follow_all(Machine(root, new_root(root, toolchain), str(toolchain)), arguments.program)
    finally:
        remove_mounts(root, toolchain)


if __name__ == "__main__":
    sys.exit(main())
