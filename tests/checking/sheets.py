"""The links of a style sheet: `url()` and `@import`, by the tokens of CSS Syntax Level 3, each with its position."""

from __future__ import annotations

import re
from typing import Iterator, NamedTuple, Optional

NEWLINE = r"(?:\r\n|[\n\r\f])"
SPACES = re.compile(r"[ \t\n\r\f]*")
ESCAPE = r"\\(?:[0-9A-Fa-f]{1,6}(?:\r\n|[ \t\n\r\f])?|[^\n\r\f0-9A-Fa-f])"
ESCAPED = re.compile(rf"\\(?:([0-9A-Fa-f]{{1,6}})(?:\r\n|[ \t\n\r\f])?|({NEWLINE})|(.)|\Z)", re.S)
COMMENT = re.compile(r"/\*.*?(?:\*/|\Z)", re.S)
# A name, also that of a rule after `@` or of a colour after `#`, or a number with its unit
WORD = re.compile(rf"[@#]?(?:[A-Za-z0-9_\x80-\U0010ffff\0-]|{ESCAPE})+", re.S)
STRING_ENDS = {mark: re.compile(rf"(?:[^{mark}\\\n\r\f]|{ESCAPE}|\\{NEWLINE}|\\\Z)*", re.S) for mark in "'\""}
# A URL without quotes ends at white space, and no quotes, parentheses or controls are in it
URL = re.compile(rf"(?:[^\0-\x08\x0b\x0e-\x1f\x7f\"'()\\ \t\n\r\f]|\0|{ESCAPE})*", re.S)
LINKS = re.compile(r"\\|url\(|@import", re.I)  # a sheet with links has one of these
URL_REST = re.compile(rf"(?:[^)\\]|{ESCAPE}|\\)*", re.S)


class Url(NamedTuple):
    """The text of a link, and the position at which its value begins."""

    text: str
    at: int


class Found(NamedTuple):
    """A string or a URL: its text with its escapes replaced, or None if it is broken off; where it begins; and where more text begins."""

    text: Optional[str]
    at: int
    end: int


def end_of(pattern: "re.Pattern[str]", text: str, at: int) -> int:
    """The end of the match of a pattern that begins at a position, or the position if there is none."""
    found = pattern.match(text, at)
    return found.end() if found else at


def unescaped(text: str) -> str:
    """A text with its escapes replaced."""

    def one(found: "re.Match[str]") -> str:
        if not found[1]:
            return found[3] or ("" if found[2] else "\ufffd")
        number = int(found[1], 16)
        return "\ufffd" if number == 0 or number > 0x10FFFF or 0xD800 <= number < 0xE000 else chr(number)

    return ESCAPED.sub(one, text).replace("\0", "\ufffd") if "\\" in text or "\0" in text else text


def after_blanks(text: str, at: int) -> int:
    """The position after white space and comments."""
    while True:
        end = end_of(COMMENT, text, end_of(SPACES, text, at))
        if end == at:
            return at
        at = end


def string_at(text: str, at: int) -> Optional[Found]:
    """The string that begins at a position, if one does. A line break in it breaks it off."""
    mark = text[at:at + 1]
    if mark not in STRING_ENDS:
        return None
    end = end_of(STRING_ENDS[mark], text, at + 1)
    if end < len(text) and text[end] != mark:
        return Found(None, at + 1, end)
    value = text[at + 1:end]
    # At the end of the sheet a backslash is nothing
    odd = end == len(text) and (len(value) - len(value.rstrip("\\"))) % 2
    return Found(unescaped(value[:-1] if odd else value), at + 1, end + 1)


def url_at(text: str, at: int) -> Found:
    """The URL after `url(`, with quotes or without."""
    begin = end_of(SPACES, text, at)
    quoted = string_at(text, begin)
    if quoted is not None:
        return quoted
    end = end_of(URL, text, begin)
    after = end_of(SPACES, text, end)
    if after < len(text) and text[after] != ")":
        return Found(None, begin, end_of(URL_REST, text, after) + 1)
    return Found(unescaped(text[begin:end]), begin, after + 1)


def urls_of(sheet: str) -> Iterator[Url]:
    """The texts of `url()` and `@import` in a style sheet that are not broken off, and not empty without quotes."""
    at = 0 if LINKS.search(sheet) else len(sheet)
    while at < len(sheet):
        string = string_at(sheet, at)
        passed = COMMENT.match(sheet, at)
        word = WORD.match(sheet, at)
        if string is not None:
            at = string.end
        elif passed is not None:
            at = passed.end()
        elif word is None:
            at += 1
        else:
            at = word.end()
            found = named_url(sheet, word[0], at)
            if found is not None:
                at = found.end
                if found.text or found.text == "" and sheet[found.at - 1] in STRING_ENDS:
                    yield Url(found.text, found.at)


def named_url(sheet: str, word: str, at: int) -> Optional[Found]:
    """The URL after a word that ends at a position, if that is `url(` or `@import`."""
    name = unescaped(word).lower()
    if name == "url" and not word.startswith("#") and sheet.startswith("(", at):
        return url_at(sheet, at + 1)
    return string_at(sheet, after_blanks(sheet, at)) if name == "@import" else None
