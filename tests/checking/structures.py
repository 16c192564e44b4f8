"""The reports in JUnit's XML, as GitLab and Jenkins document it, and in SARIF 2.1.0: what these formats require, and what rows give."""

from __future__ import annotations

import json
import re
from itertools import groupby
from typing import Any, Dict, FrozenSet, Iterator, List, NamedTuple, Optional, Tuple
from urllib.parse import quote
from xml.etree import ElementTree

from checking.model import Row
from checking.printing import advice, as_written, asked, base_hint, in_order, message, named, place_order, shown, targets

# A URI reference by RFC 3986, as far as its characters show it
PCHAR = r"(?:[A-Za-z0-9\-._~!$&'()*+,;=:@]|%[0-9A-Fa-f]{2})"
SEGMENT = PCHAR.replace(":@", "@")
RELATIVE = re.compile(rf"(?:/?{SEGMENT}+(?:/{PCHAR}*)*)?(?:\?(?:{PCHAR}|[/?])*)?(?:#(?:{PCHAR}|[/?])*)?")
ABSOLUTE = re.compile(rf"[A-Za-z][A-Za-z0-9+.\-]*:(?://[A-Za-z0-9\-._~!$&'()*+,;=:@\[\]%]*)?(?:/{PCHAR}*)*")
LEVELS = ("none", "note", "warning", "error")
# The names of the rules, by what is missing, by the reason or by the kind of a row
RULES = {
    "page": "missing-page", "anchor": "missing-anchor", "not_url": "not-a-url", "unknown_scheme": "unknown-scheme", "local_file": "local-file",
    "above_folder": "leaves-the-folder", "outside_base": "outside-base", "not_in_map": "not-in-map", "unlisted": "not-in-sitemap",
}


class Element(NamedTuple):
    """What an element of JUnit's XML may have."""

    required: FrozenSet[str]
    optional: FrozenSet[str]
    children: FrozenSet[str]


def element(required: str, optional: str, children: str) -> Element:
    """An element with these attributes and children."""
    return Element(frozenset(required.split()), frozenset(optional.split()), frozenset(children.split()))


# By the schema of Jenkins' plugin for JUnit, without what no report of a check has
ELEMENTS = {
    "testsuites": element("", "name time tests failures disabled errors", "testsuite"),
    "testsuite": element("name tests", "failures errors skipped time timestamp hostname id package file", "properties testcase system-out system-err"),
    "testcase": element("name", "classname assertions time status file line", "skipped error failure system-out system-err"),
    "failure": element("", "message type", ""),
    "skipped": element("", "message type", ""),
    "system-out": element("", "", ""),
}


def count(node: ElementTree.Element, name: str) -> int:
    """The number of elements with this name in an element."""
    return sum(1 for _ in node.iter(name))


def junit_errors(node: ElementTree.Element) -> Iterator[str]:
    """What is wrong with an element and those in it."""
    kind = ELEMENTS.get(node.tag)
    if kind is None:
        yield f"unexpected element {node.tag}"
        return
    names = set(node.attrib)
    if not kind.required <= names <= kind.required | kind.optional:
        yield f"{node.tag} has the attributes {sorted(names)}"
    counted = {"tests": "testcase", "failures": "failure", "errors": "error", "skipped": "skipped"}
    for name in counted.keys() & names:
        if node.attrib[name] != str(count(node, counted[name])):
            yield f"{name} of {node.tag} is {node.attrib[name]}"
    for child in node:
        if child.tag not in kind.children:
            yield f"{child.tag} in {node.tag}"
        yield from junit_errors(child)


class Link(NamedTuple):
    """A broken link: its target, and its location if it has one. Or a document that no sitemap lists."""

    row: Row
    place: Optional[Row]

    def text(self) -> str:
        """What is wrong."""
        notes = as_written(self.place, named(self.row)) + asked(self.row, self.place) if self.place else ""
        return f"{named(self.row)}: {message(self.row)}{notes}{advice(self.row)}"

    def suite(self) -> str:
        """The name of the test suite that has the link."""
        return in_xml(self.place["file"]) if self.place else "sitemap" if self.row["kind"] == "unlisted" else "no file"

    def rule(self) -> str:
        """The rule that is broken."""
        return RULES[self.row.get("missing") or self.row.get("reason") or self.row["kind"]]


def links_of(rows: List[Row]) -> List[Link]:
    """The broken links by file, line and column, then the targets without a location, and the documents that no sitemap lists."""
    found = in_order(targets(rows))
    placed = [(Link(row, place), place_order(place)) for row, places in found for place in places]
    others = [row for row, places in found if not places] + [{**row, "target": row["name"]} for row in rows if row["kind"] == "unlisted"]
    return [link for link, _ in sorted(placed, key=lambda one: one[1])] + [Link(row, None) for row in others]


def path_in(folder: str, file: str) -> str:
    """The path of a file with its folder."""
    return file if folder == "." else folder.rstrip("/") + "/" + file


def in_xml(text: str) -> str:
    """A text as XML can have it."""
    return re.sub("[\ufffe\uffff]", lambda one: f"\\u{{{ord(one[0]):x}}}", shown(text))


# The attributes of a test case, and the elements in it: their names, attributes and texts
Case = Tuple[Dict[str, str], List[Tuple[str, Dict[str, str], str]]]


def hint_texts(rows: List[Row]) -> List[str]:
    """The hint at BASE, if there is one."""
    return [base_hint(row) for row in rows if row["kind"] == "hint"]


def expected_suites(rows: List[Row], folder: str) -> Iterator[Tuple[str, List[Case]]]:
    """The names of the test suites, and their cases: one suite for the hint at BASE, as a test that was skipped, one for each file, one for
    targets without a location, and one for sitemaps.
    """
    for hint in hint_texts(rows):
        yield "hint", [({"name": "BASE", "classname": "hint"}, [("skipped", {"message": in_xml(hint)}, "")])]
    links = links_of(rows)
    if not links:
        yield "links", [({"name": "no broken links", "classname": "links"}, [])]
    for (_, name), some in groupby(links, key=lambda link: (link.place is None, link.suite())):
        cases: List[Case] = []
        for link in some:
            location = f"{link.place['line']}:{link.place['column']}: " if link.place else ""
            case = {"name": location + in_xml(named(link.row)), "classname": name}
            case.update({"file": in_xml(path_in(folder, link.place["file"]))} if link.place else {})
            cases.append((case, [("failure", {"type": link.rule(), "message": in_xml(link.text())}, in_xml(link.text()))]))
        yield name, cases


def actual_case(case: ElementTree.Element) -> Case:
    """A test case of a report."""
    return dict(case.attrib), [(child.tag, dict(child.attrib), child.text or "") for child in case]


def junit_error(actual: str, rows: List[Row], folder: str) -> Optional[str]:
    """What is wrong with a report in JUnit's XML. GitLab keeps only the first of several test cases with one name."""
    root = ElementTree.fromstring(actual.encode())
    errors = list(junit_errors(root)) + [f"the root is {root.tag}"] * (root.tag != "testsuites")
    if errors:
        return errors[0]
    suites = [(suite.attrib["name"], [actual_case(case) for case in suite.iter("testcase")]) for suite in root]
    for one, other in zip(suites, expected_suites(rows, folder)):
        if one != other:
            return f"\n  actual   {one}\n  expected {other}"
    names = [(case["classname"], case["name"]) for _, cases in suites for case, _ in cases]
    return None if len(suites) == len(list(expected_suites(rows, folder))) and len(set(names)) == len(names) else "suites or names"


class Sarif:
    """Collects what is wrong with a report in SARIF."""

    def __init__(self, log: Dict[str, Any]) -> None:
        self.errors: List[str] = []
        self.expect(log.get("version") == "2.1.0", "version")
        self.expect(str(log.get("$schema", "https://")).startswith("https://"), "$schema")
        runs = log.get("runs")
        self.expect(isinstance(runs, list) and len(runs) > 0, "runs")
        for run in runs if isinstance(runs, list) else []:
            self.read_run(run)

    def expect(self, is_right: object, what: str) -> None:
        """Keeps an error if something is not right."""
        if not is_right:
            self.errors.append(what)

    def read_run(self, run: Dict[str, Any]) -> None:
        """Reads a run."""
        driver = run.get("tool", {}).get("driver", {})
        self.expect(isinstance(driver.get("name"), str) and driver["name"], "tool.driver.name")
        self.expect(run.get("columnKind") == "unicodeCodePoints", "columnKind")
        rules = [rule.get("id") for rule in driver.get("rules", [])]
        self.expect(all(isinstance(rule, str) for rule in rules) and len(set(rules)) == len(rules), "rules")
        bases = run.get("originalUriBaseIds", {})
        for base in bases.values():
            uri = base.get("uri", "")
            self.expect(ABSOLUTE.fullmatch(uri) and uri.endswith("/"), f"originalUriBaseIds: {uri}")
        for invocation in run.get("invocations", []):
            self.expect(isinstance(invocation.get("executionSuccessful"), bool), "executionSuccessful")
            for notification in invocation.get("toolConfigurationNotifications", []):
                self.expect(isinstance(notification.get("message", {}).get("text"), str), "message.text of a notification")
                self.expect(notification.get("level", "warning") in LEVELS, "level of a notification")
        self.expect(isinstance(run.get("results"), list), "results")
        for result in run.get("results") or []:
            self.read_result(result, rules, bases)

    def read_result(self, result: Dict[str, Any], rules: List[str], bases: Dict[str, Any]) -> None:
        """Reads a result."""
        self.expect(isinstance(result.get("message", {}).get("text"), str), "message.text")
        self.expect(result.get("level") in LEVELS, "level")
        self.expect(result.get("ruleId") in rules if rules else result.get("ruleId"), "ruleId")
        self.expect("ruleIndex" not in result or rules[result["ruleIndex"]] == result.get("ruleId"), "ruleIndex")
        for location in result.get("locations", []):
            place = location.get("physicalLocation", {})
            artifact, region = place.get("artifactLocation", {}), place.get("region", {})
            uri = artifact.get("uri", "")
            self.expect(uri and (RELATIVE.fullmatch(uri) or ABSOLUTE.fullmatch(uri)), f"artifactLocation.uri: {uri}")
            self.expect("uriBaseId" not in artifact or artifact["uriBaseId"] in bases, "uriBaseId")
            self.expect(all(isinstance(region.get(name), int) and region[name] > 0 for name in ("startLine", "startColumn")), "region")


def expected_result(link: Link, folder: str, sources: str) -> Row:
    """A result of a report in SARIF. With the URL of the sources, the URI of its file is below this."""
    result: Row = {"ruleId": link.rule(), "level": "error", "message": {"text": shown(link.text())}}
    if link.place:
        file = {"uri": quote(link.place["file"]), "uriBaseId": "SOURCES"} if sources else {"uri": quote(path_in(folder, link.place["file"]))}
        region = {"startLine": link.place["line"], "startColumn": link.place["column"]}
        result["locations"] = [{"physicalLocation": {"artifactLocation": file, "region": region}}]
    return result


def sarif_error(actual: str, rows: List[Row], folder: str, sources: str = "") -> Optional[str]:
    """What is wrong with a report in SARIF."""
    log = json.loads(actual)
    errors = Sarif(log).errors
    if errors:
        return errors[0]
    run = log["runs"][0]
    bases = {"SOURCES": {"uri": sources.rstrip("/") + "/"}} if sources else None
    if run.get("originalUriBaseIds") != bases:
        return f"bases {run.get('originalUriBaseIds')}"
    notes = [{"level": "note", "message": {"text": shown(hint)}} for hint in hint_texts(rows)]
    if run.get("invocations") != ([{"executionSuccessful": True, "toolConfigurationNotifications": notes}] if notes else None):
        return f"invocations {run.get('invocations')}"
    results = [expected_result(link, folder, sources) for link in links_of(rows)]
    for one, other in zip(run["results"], results):
        if {key: value for key, value in one.items() if key != "ruleIndex"} != other:
            return f"\n  actual   {one}\n  expected {other}"
    return None if len(results) == len(run["results"]) else f"{len(run['results'])} results, {len(results)} expected"
