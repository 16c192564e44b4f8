#!/usr/bin/env python3
"""Compares the saved webs of `mercator site` with those of a converter in Python: site.py [--drawn COUNT] [--seed SEED] [FOLDER ..].

The environment variable PROGRAM names the program to test; the default is the one built in crates/mercator_cli. The script
compares the shipped site, random documents with elements that contain only text, and each FOLDER byte for byte with the output
of the converter, tests/checking/converter.py. Without a FOLDER it takes the documentation folders that are installed
(DOCUMENTATION in tests/checking/loading.py).

With --drawn it also compares random folders whose documents have broken markup. For these the converter reads documents with
html5lib's tokenizer (Debian's python3-html5lib), because its own differs from the HTML Standard. tests/check.py compares other
random folders. The known differences of the program are at the end of this help. The last line is `N passed, M failed`; the
exit status is 1 if any failed.
"""

from __future__ import annotations

import argparse
import os
import pathlib
import random
import subprocess
import sys
import tempfile
from typing import Any

from checking import drawing, loading, webs
from checking.webs import DIFFERENCES, Converter, first_difference

BASE = "http://docs.test/"


def web_of(program: str, folder: str, options: list[str]) -> bytes:
    """The program's saved web of a folder."""
    done = subprocess.run([program, "site", *options, folder, BASE], capture_output=True, check=False)
    if done.returncode != 0:
        sys.exit(f"{folder}: exit status {done.returncode}\n{done.stderr.decode(errors='replace')}")
    return done.stdout


def compare_folder(program: str, folder: str) -> bool:
    """Compares the saved web of a folder with the output of the unchanged converter."""
    command = [sys.executable, str(loading.ROOT / "tests/checking/converter.py"), "--quiet", folder, BASE]
    expected = subprocess.run(command, capture_output=True, check=True).stdout
    actual = web_of(program, folder, [])
    print(f"{folder}: {len(actual)} bytes, {first_difference(actual, expected) or 'the same'}")
    return actual == expected


TEXTS = "title textarea iframe xmp noembed noframes style script".split()
IN_TEXTS = ["<a href=in>", "<img src=in>", "</a>", "</p>", "<!", "-->", "<", ">", "&amp;", "&#", "x", "\n", "</titles>", "</ title>", "<p/>"]


def random_texts(draw: random.Random) -> str:
    """Elements that contain only text, some without an end tag, and a link after each."""
    text = "<!doctype html><a href=first>"
    for number in range(draw.randint(1, 6)):
        name = draw.choice([*TEXTS, "plaintext"] if draw.random() < 0.1 else TEXTS)
        name = draw.choice([name, name.upper(), name.title()])
        is_script = name.lower() == "script"
        inside = "".join(draw.choice(IN_TEXTS if is_script else [*IN_TEXTS, "<!--"]) for _ in range(draw.randint(0, 6)))
        # In a script without an end tag a comment may start, which the converter does not know.
        is_ended = draw.random() < 0.9 or is_script
        end = f"</{name.swapcase()}{draw.choice(['', ' ', chr(10), '/', ' x=y', ' x'])}>" if is_ended else ""
        text += f"<{name}{draw.choice(['', ' id=a', '/', ' src=own'])}>{inside}{end}<a href=after{number}>"
    return text


def draw_texts(draw: random.Random, top: pathlib.Path) -> None:
    """Fills a folder with documents of such elements."""
    for number in range(400):
        (top / f"{number}.html").write_text(random_texts(draw), "utf-8")


def html5lib_converter(links: Any) -> Converter:
    """The converter with html5lib's tokenizer, as html_links.py uses it."""

    class Reader(links.Reader):  # type: ignore
        """Feeds a document to html5lib's tokenizer."""

        base: str | None

        def feed(self, data: str) -> None:
            if not self.xml:
                self.read(data)
                return
            # html5lib's tokenizer does not read XML
            reader = webs.Reader(self.styles, True)
            reader.feed(data)
            self.links, self.base = reader.links, reader.base

        def read_in(self, context: Any, token: dict[str, Any], found: dict[str, str]) -> None:
            kept = {name: found[name] for name in found if self.styles or name != "style"}
            super().read_in(context, token, kept)

        def read_tag(self, tag: str, found: dict[str, str], is_foreign: bool = False) -> None:
            if tag == "base" and self.base is None:
                self.base = found.get("href")
            super().read_tag(tag, found, is_foreign)

        def flush(self, style: str | None) -> None:
            if self.styles:
                super().flush(style)

        def close(self) -> None:
            """Does nothing, since nothing is buffered."""

    return Converter(links.TOOL, Reader)


def compare_random(program: str, count: int, seed: int) -> int:
    """Compares random folders and returns the number of differences."""
    links = loading.script("html_links", "tests/html_links.py")
    links.random_style = lambda _: ""  # html_links.py compares broken style sheets
    converter = html5lib_converter(links)
    draw = random.Random(seed)
    failed = 0
    for number in range(count):
        with tempfile.TemporaryDirectory() as above:
            folder = os.path.join(above, "site")
            os.mkdir(folder)
            drawing.draw_folder(draw, links, pathlib.Path(folder))
            options = drawing.random_options(draw)
            difference = first_difference(web_of(program, folder, options), converter.web(folder, options, BASE))
            if difference:
                failed += 1
                if failed <= 5:
                    print(f"folder {number} {options}: {difference}")
    print(f"{count - failed} random folders the same, {failed} differ")
    return failed


def main() -> int:
    """Runs the comparisons."""
    parser = argparse.ArgumentParser(description=__doc__, formatter_class=argparse.RawDescriptionHelpFormatter, epilog=DIFFERENCES)
    parser.add_argument("folders", nargs="*", metavar="FOLDER", help="folder to compare")
    parser.add_argument("--drawn", type=int, default=0, metavar="COUNT", help="number of random folders (default: 0)")
    parser.add_argument("--seed", type=int, default=1, help="seed of the random documents (default: 1)")
    options = parser.parse_args()
    program = loading.program()
    folders = options.folders or [folder for folder in loading.DOCUMENTATION if os.path.isdir(folder)]
    with tempfile.TemporaryDirectory() as texts:
        draw_texts(random.Random(options.seed), pathlib.Path(texts))
        results = [compare_folder(program, folder) for folder in (str(loading.ROOT / "examples/site"), texts, *folders)]
    failed = results.count(False)
    if options.drawn:
        failed += compare_random(program, options.drawn, options.seed)
    print(f"{len(results) + options.drawn - failed} passed, {failed} failed")
    return 1 if failed else 0


if __name__ == "__main__":
    sys.exit(main())
