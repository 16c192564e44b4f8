"""What may be missing in a link, by its text: a question that a report asks about it."""

from __future__ import annotations

import re
from typing import Any, Dict

# By the beginning of a link to a missing page, what may be missing in it
INCOMPLETE = {"http//": "a colon", "https//": "a colon", "www.": "https://"}
SLASHLESS = re.compile(r"https?:(?![/\\]{2})", re.IGNORECASE)
MAY_LACK_SLASHES = ("not_url", "above_folder", "outside_base", "not_in_map")
IN_MAIL = re.compile("[A-Za-z0-9+._-]+")  # what the name and the host of a mail address may consist of


def is_mail_address(text: str) -> bool:
    """Whether a text is a mail address: a name and a host, which begins with a letter and has a dot."""
    name, _, host = text.partition("@")
    return all(map(IN_MAIL.fullmatch, (name, host))) and host[0].isalpha() and "." in host


def question(row: Dict[str, Any], place: Dict[str, Any]) -> str:
    """What may be missing in a link to a missing page, in one that is no URL, or in one that leaves the site; otherwise an empty text."""
    text = row["target"] if place["written"] is None else place["written"]
    if (row.get("missing") == "page" or row.get("reason") in MAY_LACK_SLASHES) and SLASHLESS.match(text):
        return "are slashes missing?"
    if row.get("missing") != "page":
        return ""
    found = [what for begin, what in INCOMPLETE.items() if text.startswith(begin)] + ["mailto:"] * is_mail_address(text)
    return f"is {found[0]} missing?" if found else ""
