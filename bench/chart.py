#!/usr/bin/env python3
"""Makes docs/comparison.svg, the chart in README, from the times that `bench/others.sh --save bench/comparison.txt` wrote.

Usage: chart.py [--data FILE] [--output FILE]
       chart.py --check     fails if the chart is not the one that this script makes of the data

Each tool has a dot on a logarithmic axis, and its time as text. A run that was stopped has a ring at the limit.
"""

from __future__ import annotations

import argparse
import math
import sys
from pathlib import Path
from typing import NamedTuple
from xml.sax.saxutils import escape

TOP = Path(__file__).resolve().parents[1]
DATA = TOP / "bench/comparison.txt"
CHART = TOP / "docs/comparison.svg"
OURS = "mercator"
TITLES = {"/usr/share/doc/python3.11/html": "Python's documentation"}

WIDTH, MARGIN = 760, 20
LEFT, RIGHT = 130, 660  # of the axis; the values stand to the right of their dots
FIRST, ROW, GAP = 84, 24, 42  # the first panel's title, a row, the space between panels

STYLE = """
  .ground { fill: #ffffff; stroke: #d1d9e0; }
  text {
    fill: #1f2328; font: 14px system-ui, -apple-system, "Segoe UI", Helvetica, Arial, sans-serif;
    stroke: #ffffff; stroke-width: 4px; paint-order: stroke; stroke-linejoin: round;
  }
  .title { font-size: 18px; font-weight: 600; }
  .panel, .ours { font-weight: 600; }
  .note { fill: #59636e; font-size: 12px; }
  .grid { stroke: #d1d9e0; }
  .guide { stroke: #d1d9e0; stroke-dasharray: 1 4; }
  .dot { fill: #59636e; stroke: #59636e; stroke-width: 2; }
  .dot.ours { fill: #0969da; stroke: #0969da; }
  .dot.stopped { fill: none; }
  @media (prefers-color-scheme: dark) {
    .ground { fill: #0d1117; stroke: #3d444d; }
    text { fill: #f0f6fc; stroke: #0d1117; }
    .note { fill: #9198a1; }
    .grid, .guide { stroke: #3d444d; }
    .dot { fill: #9198a1; stroke: #9198a1; }
    .dot.ours { fill: #4493f8; stroke: #4493f8; }
    .dot.stopped { fill: none; }
  }
"""


class Row(NamedTuple):
    """One tool's time for one folder."""

    tool: str
    folder: str
    pages: int
    seconds: float
    is_stopped: bool


class Data(NamedTuple):
    """What others.sh wrote."""

    date: str
    machine: str
    versions: str
    rows: list[Row]


def read(path: Path) -> Data:
    notes, rows = [], []
    for line in path.read_text("utf-8").splitlines():
        if line.startswith("# "):
            notes.append(line[2:])
        else:
            tool, folder, pages, seconds = line.split("\t")
            rows.append(Row(tool, folder, int(pages), float(seconds.lstrip("> ")), seconds.startswith(">")))
    if len(notes) < 4 or not rows:
        sys.exit(f"chart.py: {path} is not a file of bench/others.sh --save")
    return Data(notes[1], notes[2], notes[3], rows)


def as_seconds(row: Row) -> str:
    if row.is_stopped:
        return f"> {row.seconds:.0f} s"
    digits = min(3, max(0, 1 - math.floor(math.log10(row.seconds))))
    return f"{row.seconds:.{digits}f} s"


def as_tick(exponent: int) -> str:
    return f"{10 ** exponent:g} s" if exponent >= 0 else f"{10 ** exponent:.{-exponent}f} s"


def text(x: float, y: float, content: str, kind: str = "", anchor: str = "start") -> str:
    marks = f' class="{kind}"' if kind else ""
    return f'<text x="{x:g}" y="{y:g}"{marks} text-anchor="{anchor}">{escape(content)}</text>'


def line(x1: float, y1: float, x2: float, y2: float, kind: str) -> str:
    return f'<line x1="{x1:g}" y1="{y1:g}" x2="{x2:g}" y2="{y2:g}" class="{kind}"/>'


def draw(data: Data) -> str:
    folders = list(dict.fromkeys(row.folder for row in data.rows))
    slowness = {row.tool: (row.seconds, row.is_stopped) for row in data.rows if row.folder == folders[-1]}
    low = math.floor(math.log10(min(row.seconds for row in data.rows)))
    high = math.ceil(math.log10(max(row.seconds for row in data.rows)))

    def place(seconds: float) -> float:
        return round(LEFT + (RIGHT - LEFT) * (math.log10(seconds) - low) / (high - low), 1)

    parts: list[str] = []
    y = FIRST
    for folder in folders:
        rows = sorted((row for row in data.rows if row.folder == folder), key=lambda row: slowness[row.tool])
        parts.append(text(MARGIN, y, f"{TITLES.get(folder, folder)} ({rows[0].pages} HTML files)", "panel"))
        top, bottom = y + 10, y + 14 + ROW * len(rows)
        for exponent in range(low, high + 1):
            x = place(10.0**exponent)
            parts += [line(x, top, x, bottom, "grid"), text(x, bottom + 15, as_tick(exponent), "note", "middle")]
        for number, row in enumerate(rows):
            middle = top + 4 + ROW * (number + 0.5)
            x = place(row.seconds)
            ours = " ours" if row.tool == OURS else ""
            stopped = " stopped" if row.is_stopped else ""
            parts += [
                line(LEFT, middle, RIGHT, middle, "guide"),
                text(LEFT - 12, middle + 5, row.tool, ours.strip(), "end"),
                f'<circle cx="{x:g}" cy="{middle:g}" r="5" class="dot{ours}{stopped}"/>',
                text(x + 12, middle + 5, as_seconds(row), ours.strip()),
            ]
        y = bottom + GAP
    notes = [
        f"mercator and html-proofer read the folder; the other tools fetch it from a server on the same machine. {data.date}.",
        data.versions + ".",
        data.machine + ". bench/FIGURES.md has the conditions.",
    ]
    y += 2
    for note in notes:
        parts.append(text(MARGIN, y, note, "note"))
        y += 17
    height = y + 2
    title = "Time to check the links of a folder"
    times = "; ".join(f"{row.tool}, {TITLES.get(row.folder, row.folder)}: {as_seconds(row)}" for row in data.rows)
    head = [
        f'<svg xmlns="http://www.w3.org/2000/svg" width="{WIDTH}" height="{height:g}" viewBox="0 0 {WIDTH} {height:g}" role="img">',
        f"<title>{title}</title>",
        f"<desc>{escape(times)}.</desc>",
        f"<style>{STYLE}</style>",
        f'<rect x="0.5" y="0.5" width="{WIDTH - 1}" height="{height - 1:g}" rx="6" class="ground"/>',
        text(MARGIN, 32, title, "title"),
        text(MARGIN, 53, "Elapsed seconds, less is better. The scale is logarithmic: each line is ten times the one before.", "note"),
    ]
    return "\n".join([*head, *parts, "</svg>", ""])


def main() -> None:
    parser = argparse.ArgumentParser(description="Draw the chart of README from the times of bench/others.sh.")
    parser.add_argument("--data", type=Path, default=DATA, help="file of bench/others.sh --save [default: bench/comparison.txt]")
    parser.add_argument("--output", type=Path, default=CHART, help="chart to write [default: docs/comparison.svg]")
    parser.add_argument("--check", action="store_true", help="fail if the chart is not the one of the data; write nothing")
    arguments = parser.parse_args()
    chart = draw(read(arguments.data))
    if not arguments.check:
        arguments.output.write_text(chart, "utf-8")
    elif arguments.output.read_text("utf-8") != chart:
        sys.exit(f"chart.py: {arguments.output} is not the chart of {arguments.data}: run bench/chart.py")


if __name__ == "__main__":
    main()
