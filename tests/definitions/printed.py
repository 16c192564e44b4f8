"""The bytes of a report in each form, by `check_report`, compared with those that a program prints."""

from __future__ import annotations

import json
from typing import Callable, Dict, Iterator, List, NamedTuple, Sequence, Tuple

from checking import printing
from checking.model import Row, Settings
from definitions.findings import Report, report_of, shown_text
from definitions.translate import Library
from definitions.values import NONE, Record, Value, from_option, reference, some, unlisted

SOURCES = "https://code.test/site/blob/main/"


class Form(NamedTuple):
    """A form of a report: the options of the program, and the definition with its arguments before the contents."""

    options: Tuple[str, ...]
    definition: str
    arguments: Tuple[Value, ...] = ()
    every: bool = False  # whether all locations are listed
    by_target: bool = False
    sources: str = ""


FORMS: Dict[str, Form] = {
    "json": Form(("--json",), "printed_json"),
    "text": Form((), "printed_text", (False,)),
    "text of all": Form(("--all-sources",), "printed_text", (False,), every=True),
    "text by target": Form(("--by-target",), "printed_text", (False,), by_target=True),
    "annotations": Form(("--annotations",), "printed_annotations"),
    "page": Form(("--html",), "printed_page"),
    "page with sources": Form(("--format", "html", "--source-url", SOURCES), "printed_page", sources=SOURCES),
    "JUnit": Form(("--format", "junit"), "printed_junit"),
    "SARIF": Form(("--format", "sarif"), "printed_sarif"),
    "SARIF with sources": Form(("--format", "sarif", "--source-url", SOURCES), "printed_sarif", sources=SOURCES),
}


def findings_of(base: str, report: Report) -> Record:
    """What a check found."""
    return Record(
        base=reference(shown_text(base)), totals=report.totals, broken=reference(report.broken), worst=reference(report.worst),
        redirects=reference(report.redirects), unreached=reference(report.unreached), unlisted=reference(report.unlisted),
        unused_ignores=reference(report.unused), base_hint=from_hint(report.hint),
    )


def from_hint(hint: Value) -> Value:
    """The hint to which a reference points, if there is one."""
    return from_option(hint, lambda found: some(reference(found))) or NONE


def contents_of(settings: Settings, folder: str, form: Form, report: Report) -> Record:
    """What a report lists."""
    return Record(
        lists=Record(all=form.every, unreached=settings.unreached, unlisted=settings.sitemap, by_target=form.by_target),
        external=some(reference(report.external)) if settings.external else NONE, folder=reference(shown_text(folder)),
        source_url=reference(shown_text(form.sources)),
    )


def printed(library: Library, settings: Settings, folder: str, base: str, rows: Sequence[Row], form: Form) -> bytes:
    """The bytes of a report in a form, of these rows."""
    report = report_of(rows)
    function: Callable[..., Value] = library.function(f"check_report.Printing.{form.definition}")
    return unlisted(function(*form.arguments, contents_of(settings, folder, form, report), findings_of(base, report)))


def errors(
    library: Library, settings: Settings, folder: str, base: str, rows: Sequence[Row], run: Callable[[Tuple[str, ...]], bytes], forms: Sequence[str],
) -> Iterator[str]:
    """The forms in which the definitions give other bytes than the program. `run` is what it prints with these options."""
    for name in forms:
        actual, expected = run(FORMS[name].options), printed(library, settings, folder, base, rows, FORMS[name])
        if actual != expected:
            yield f"{name}: {first_difference(actual, expected)}"


def model_errors(library: Library, settings: Settings, folder: str, rows: Sequence[Row]) -> Iterator[str]:
    """The forms in which the definitions give other bytes, or other rows, than the model."""
    given = [{**rows[0], "base": ""}, *rows[1:]]
    for name in ("text", "text of all", "text by target"):
        form = FORMS[name]
        expected = printing.as_text(given, printing.Options(form.by_target, form.every)).encode()
        actual = printed(library, settings, folder, "", rows, form)
        if actual != expected:
            yield f"{name}: {first_difference(expected, actual)}"
    actual = printed(library, settings, folder, "", rows, FORMS["annotations"])
    if actual != printing.as_annotations(list(rows), folder).encode():
        yield f"annotations: {first_difference(printing.as_annotations(list(rows), folder).encode(), actual)}"
    printed_rows = [json.loads(line) for line in printed(library, settings, folder, "", rows, FORMS["json"]).splitlines()]
    if printed_rows != given:
        yield f"json: {next((pair for pair in zip(given, printed_rows) if pair[0] != pair[1]), 'other rows')}"


def first_difference(actual: bytes, expected: bytes) -> str:
    """The first line in which two reports differ."""
    ours: List[bytes] = actual.split(b"\n")
    theirs: List[bytes] = expected.split(b"\n")
    for number, (one, other) in enumerate(zip(ours, theirs), 1):
        if one != other:
            return f"line {number}: {one!r}, by the definitions {other!r}"
    return f"{len(ours)} lines, by the definitions {len(theirs)}"
