"""The functions of libraries that the definitions cite, in Python: those of `std`, of `percent_encoding`, `memchr`, `json`, and of
the URL Standard's parser, in place of which `drawn.py` parses. Their own definitions are not read here.
"""

from __future__ import annotations

import re
from functools import lru_cache
from typing import Any, Callable, Dict, List, Optional, Tuple
from urllib.parse import unquote_to_bytes

import drawn
from definitions.values import NIL, NONE, Joined, Record, Undecided, Value, items, listed, pair, same, some, text, unlisted

LESS, EQUAL, GREATER = ("Less",), ("Equal",), ("Greater",)
SPACES = re.compile("[\t-\r\x20\x85\xa0\u1680\u2000-\u200a\u2028\u2029\u202f\u205f\u3000]+")
EDGE = bytes(range(33))
HEX = b"0123456789abcdefABCDEF"

Test = Callable[[Value], bool]


# ---- lists


def append(one: Value, other: Value) -> Value:
    """`one ++ other`."""
    return Joined(one, other) if one and other else one or other


def take(count: int, values: Value) -> Value:
    """The first elements."""
    found: List[Value] = []
    while values and len(found) < count:
        first, values = values
        found.append(first)
    return listed(found)


def drop(count: int, values: Value) -> Value:
    """What is after the first elements."""
    while values and count > 0:
        values = values[1]
        count -= 1
    return values


# By the id of a list its rest and their number: a reader that asks for the number after each byte need not count all of them
LENGTHS: Dict[int, Tuple[Value, int]] = {}
MOST_LENGTHS = 1 << 10


def length(values: Value) -> int:
    """The number of elements."""
    count, rest = 0, values
    while rest and id(rest) not in LENGTHS:
        rest = rest[1]
        count += 1
    if rest:
        count += LENGTHS[id(rest)][1]
    if values:
        if len(LENGTHS) > MOST_LENGTHS:
            LENGTHS.clear()
        LENGTHS[id(values[1])] = values[1], count - 1
    return count


def prefix_len(test: Test, values: Value) -> int:
    """The number of elements before the first that fails the test."""
    count = 0
    while values and test(values[0]):
        values = values[1]
        count += 1
    return count


def position_or_len(test: Test, values: Value) -> int:
    """The index of the first element that passes, or the number of all."""
    return prefix_len(lambda value: not test(value), values)


def reverse(values: Value) -> Value:
    """The elements from the last to the first."""
    found = NIL
    for item in items(values):
        found = (item, found)
    return found


def fold(step: Callable[[Value, Value], Value], value: Value, values: Value) -> Value:
    """The steps for all elements, from the first."""
    for item in items(values):
        value = step(value, item)
    return value


def slice_get(values: Value, index: int) -> Value:
    """The element with this index, if there is one."""
    rest = drop(index, values)
    return some(rest[0]) if rest else NONE


def get_or(values: Value, index: int, other: Value) -> Value:
    """The element with this index, or another value."""
    rest = drop(index, values)
    return rest[0] if rest else other


def find(test: Test, values: Value) -> Value:
    """The first element that passes."""
    return next((some(item) for item in items(values) if test(item)), NONE)


def flat_map(function: Callable[[Value], Value], values: Value) -> Value:
    """The lists for all elements, one after another."""
    return listed(found for item in items(values) for found in items(function(item)))


def filter_map(function: Callable[[Value], Value], values: Value) -> Value:
    """The values for the elements that have one."""
    found = (function(item) for item in items(values))
    return listed(option[1] for option in found if option[0] == "Some")


def slice_split(test: Test, values: Value) -> Value:
    """The lists between the elements that pass."""
    parts: List[List[Value]] = [[]]
    for item in items(values):
        if test(item):
            parts.append([])
        else:
            parts[-1].append(item)
    return listed(map(listed, parts))


def join_with_byte(byte: int, parts: Value) -> Value:
    """The texts with a byte between each two."""
    return text(bytes([byte]).join(map(unlisted, items(parts))))


def pointwise(test: Callable[[Value, Value], bool], one: Value, other: Value) -> bool:
    """Lists of one length, whose elements pass a test."""
    return length(one) == length(other) and all(test(*both) for both in zip(items(one), items(other)))


def starts_with(test: Callable[[Value, Value], bool], values: Value, front: Value) -> bool:
    """The list begins with another one."""
    return pointwise(test, front, take(length(front), values))


def ends_with(test: Callable[[Value, Value], bool], values: Value, back: Value) -> bool:
    """The list ends with another one."""
    return pointwise(test, back, drop(max(length(values) - length(back), 0), values))


def slice_cmp(compare: Callable[[Value, Value], Value], one: Value, other: Value) -> Value:
    """The order of two lists by their elements."""
    while one and other:
        order = compare(one[0], other[0])
        if order != EQUAL:
            return order
        one, other = one[1], other[1]
    return GREATER if one else LESS if other else EQUAL


def nat_cmp(one: int, other: int) -> Value:
    """The order of two numbers."""
    return LESS if one < other else GREATER if one > other else EQUAL


def bytes_eq(one: Value, other: Value) -> bool:
    """Equal texts."""
    while one and other:
        if one[0] != other[0]:
            return False
        one, other = one[1], other[1]
    return not one and not other


def position(test: Test, values: Value) -> Value:
    """The index of the first element that passes."""
    index = position_or_len(test, values)
    return some(index) if index < length(values) else NONE


def matches(given: Value, word: Value, start: int) -> Value:
    """The positions of a text in another one from a position on. Those that overlap an earlier one are left out."""
    found: List[int] = []
    read, sought = unlisted(given), unlisted(word)
    at = read.find(sought, start)
    while at >= 0:
        found.append(at)
        at = read.find(sought, at + max(len(sought), 1))
    return listed(found)


def is_permutation(one: Value, other: Value) -> bool:
    """The same texts in some order."""
    return sorted(map(unlisted, items(one))) == sorted(map(unlisted, items(other)))


def is_sorted_by(is_after: Callable[[Value, Value], bool], values: Value) -> bool:
    """No element is before the one in front of it."""
    found = list(items(values))
    return not any(is_after(later, earlier) for earlier, later in zip(found, found[1:]))


def is_sorted(compare: Callable[[Value, Value], Value], values: Value) -> bool:
    """No element is less than the one before it."""
    found = list(items(values))
    return all(compare(one, other) != GREATER for one, other in zip(found, found[1:]))


def is_strictly_sorted(compare: Callable[[Value, Value], Value], values: Value) -> bool:
    """Each element is greater than the one before it."""
    found = list(items(values))
    return all(compare(one, other) == LESS for one, other in zip(found, found[1:]))


# ---- options


def option_map(function: Callable[[Value], Value], option: Value) -> Value:
    """The function of the value, if there is one."""
    return some(function(option[1])) if option[0] == "Some" else NONE


def option_and_then(function: Callable[[Value], Value], option: Value) -> Value:
    """The Option for the value, if there is one."""
    return function(option[1]) if option[0] == "Some" else NONE


# ---- texts


def utf8_lossy(given: Value) -> Value:
    """The text with U+FFFD for what is not UTF-8."""
    return text(unlisted(given).decode("utf-8", "replace").encode())


def is_utf8(given: Value) -> bool:
    """The bytes are UTF-8."""
    try:
        unlisted(given).decode()
    except UnicodeDecodeError:
        return False
    return True


def chars(given: Value) -> Value:
    """The characters of a text."""
    return listed(map(ord, unlisted(given).decode()))


def trim(given: Value) -> Value:
    """The text without white space at its ends."""
    read = unlisted(given).decode()
    return text(re.sub(rf"\A{SPACES.pattern}|{SPACES.pattern}\Z", "", read).encode())


def str_eq_ignore_ascii_case(one: Value, other: Value) -> bool:
    """Equal texts in any case."""
    return unlisted(one).lower() == unlisted(other).lower()


def lines(given: Value) -> Value:
    """The lines of a text, each without one CR at its end."""
    parts = unlisted(given).split(b"\n")
    last = parts.pop()
    found = [part[:-1] if part.endswith(b"\r") else part for part in parts]
    return listed(map(text, found + ([last] if last else [])))


def codes(given: str) -> Value:
    """The characters of a text."""
    return listed(map(ord, given))


def digit_value(byte: int) -> int:
    """The value of a digit or a letter, or 36."""
    return int(chr(byte), 36) if 48 <= byte < 58 or 65 <= byte < 91 or 97 <= byte < 123 else 36


def is_digit(byte: int, radix: int) -> bool:
    """A digit of this radix."""
    return digit_value(byte) < radix


def to_ascii_lowercase(byte: int) -> int:
    """A letter in lower case."""
    return byte + 32 if 65 <= byte < 91 else byte


def is_control(char: int) -> bool:
    """A control of C0 or C1, or DEL."""
    return char < 32 or 127 <= char < 160


# ---- percent-encoding and URLs


def percent_encode(escaped: "frozenset[int]", given: Value) -> Value:
    """The text with the escapes of the bytes in a set and of all beyond ASCII."""
    return text(b"".join(b"%%%02X" % byte if byte in escaped or byte > 127 else bytes([byte]) for byte in items(given)))


def percent_decode(given: Value) -> Value:
    """The text with a byte for each escape."""
    return text(unquote_to_bytes(unlisted(given)))


def rsplit_once(byte: int, given: Value) -> Record:
    """What is before the last such byte, if there is one, and what is after it."""
    front, mark, back = unlisted(given).rpartition(bytes([byte]))
    return pair(some(text(front)) if mark else NONE, text(back))


def trim_end(test: Test, given: Value) -> Value:
    """The text without the bytes at its end that pass."""
    read = list(items(given))
    while read and test(read[-1]):
        read.pop()
    return listed(read)


def split_scheme(given: Value) -> Value:
    """The scheme of a text and what is after its colon."""
    found = re.match(rb"([A-Za-z][A-Za-z0-9+.-]*):(.*)\Z", unlisted(given), re.DOTALL)
    return some(pair(text(found[1]), text(found[2]))) if found else NONE


def dot_count(segment: Value) -> int:
    """The number of dots of a segment that has only dots, one or two, maybe with escapes."""
    found = re.fullmatch(rb"(\.|%2e)(\.|%2e)?", unlisted(segment), re.IGNORECASE)
    return 0 if found is None else 2 if found[2] else 1


@lru_cache(maxsize=1 << 18)
def resolved(base: Optional[bytes], given: bytes) -> Optional[bytes]:
    """The URL of a text without its fragment, as in `crawl_keys`; NotPlain if `drawn.py` lacks the tables for it."""
    from checking import model

    read = given.decode("utf-8", "replace")
    if base is None and not re.match(r"[\0-\x20]*[A-Za-z][A-Za-z0-9+.\t\n\r-]*:", read):
        return None
    url = model.url_of(read, drawn.url_of(base.decode() if base else "http://none.invalid/"))
    return None if url is None else url.encode()


def key_result(url: Optional[bytes], given: Value) -> Value:
    """The result of a parser. The error of a text with another scheme than http and https is taken from `drawn.py`."""
    if url is not None:
        return ("Ok", text(url))
    try:
        drawn.url_of(unlisted(given).decode("utf-8", "replace"))
    except drawn.NotHttp:
        return ("Err", ("NotHttp",))
    except (drawn.NotUrl, drawn.NotPlain):
        pass
    return ("Err", ("NotUrl",))


def canonical(given: Value) -> Value:
    """The canonical URL of a text."""
    return key_result(resolved(None, unlisted(given)), given)


def resolve(base: Value, given: Value) -> Value:
    """The canonical URL of a link on a page."""
    return key_result(resolved(unlisted(base), unlisted(given)), given)


def host_key(url: Value) -> Value:
    """The host of a canonical URL, without its port."""
    return text(drawn.url_of(unlisted(url).decode()).host.encode())


# ---- JSON: a value and members are their text


def quoted(given: Value) -> bytes:
    """A text in quotes, with the shortest escapes."""
    short = {34: b'\\"', 92: b"\\\\", 8: b"\\b", 9: b"\\t", 10: b"\\n", 12: b"\\f", 13: b"\\r"}
    return b'"' + b"".join(short.get(byte, b"\\u%04x" % byte if byte < 32 else bytes([byte])) for byte in items(given)) + b'"'


def joined(first: bytes, rest: bytes) -> bytes:
    """Members or elements with a comma between them."""
    return first + b"," + rest if rest else first


# ---- statements


def for_all(test: Test, values: Value) -> bool:
    """The statement for each element."""
    return all(test(item) for item in items(values))


def all_zip(test: Callable[[Value, Value], bool], one: Value, other: Value) -> bool:
    """The statement for both elements at each index of lists of one length."""
    return pointwise(test, one, other)


def undecided(what: str) -> bool:
    """A statement that is not evaluated."""
    raise Undecided(what)


def minus(one: int, other: int) -> int:
    """The difference, or 0."""
    return max(one - other, 0)


def quotient(one: int, other: int) -> int:
    """The quotient; by 0 it is 0."""
    return one // other if other else 0


def remainder(one: int, other: int) -> int:
    """The remainder; by 0 it is the number itself."""
    return one % other if other else one


Native = Tuple[Any, Optional[int]]  # a function and its number of arguments, or a value

NATIVES: Dict[str, Native] = {
    "Unit": (True, None), "⊤": (True, None), "⊥": (False, None), "true": (True, None), "false": (False, None), "[]": (NIL, None), "tt": (("tt",), None),
    "zero": (0, None), "suc": (lambda n: n + 1, 1),
    "codes": (codes, 1), "string_bytes": (lambda s: s, 1),
    "length": (length, 1), "take": (take, 2), "drop": (drop, 2), "reverse": (reverse, 1), "fold": (fold, 3),
    "map": (lambda f, xs: listed(map(f, items(xs))), 2), "filter": (lambda f, xs: listed(filter(f, items(xs))), 2),
    "flat_map": (flat_map, 2), "filter_map": (filter_map, 2), "find": (find, 2), "concat": (lambda xs: flat_map(lambda x: x, xs), 1),
    "position": (position, 2), "position_or_len": (position_or_len, 2), "prefix_len": (prefix_len, 2),
    "suffix_len": (lambda f, xs: prefix_len(f, reverse(xs)), 2), "take_while": (lambda f, xs: take(prefix_len(f, xs), xs), 2),
    "before_first": (lambda f, xs: take(position_or_len(f, xs), xs), 2), "after_first": (lambda f, xs: drop(position_or_len(f, xs) + 1, xs), 2),
    "list_all": (lambda f, xs: all(map(f, items(xs))), 2), "list_any": (lambda f, xs: any(map(f, items(xs))), 2),
    "count_by": (lambda f, xs: sum(map(bool, map(f, items(xs)))), 2), "sum_by": (lambda f, xs: sum(map(f, items(xs))), 2),
    "enumerate_from": (lambda n, xs: listed(pair(n + k, x) for k, x in enumerate(items(xs))), 2),
    "slice_split": (slice_split, 2), "join_with_byte": (join_with_byte, 2), "slice_get": (slice_get, 2), "get_or": (get_or, 3),
    "slice_index": (lambda xs, n: get_or(xs, n, 0), 2), "slice_index_or": (get_or, 3),
    "slice_range": (lambda xs, a, b: take(b - a, drop(a, xs)), 3), "starts_with": (starts_with, 3), "ends_with": (ends_with, 3),
    "slice_cmp": (slice_cmp, 3), "nat_cmp": (nat_cmp, 2), "is_lt": (lambda order: order == LESS, 1),
    "ordering_then": (lambda a, b: b if a == EQUAL else a, 2), "bytes_eq": (bytes_eq, 2),
    "nat_eq": (lambda a, b: a == b, 2), "nat_lt": (lambda a, b: a < b, 2), "nat_le": (lambda a, b: a <= b, 2),
    "min": (min, 2), "max": (max, 2), "not": (lambda b: not b, 1), "bit_and": (lambda a, b: a & b, 2),
    "digits": (lambda base, upper, n: text({10: b"%d", 16: b"%X" if upper else b"%x"}[base] % n), 3), "decimal": (lambda n: text(b"%d" % n), 1), "is_in_range": (lambda low, high, n: low <= n <= high, 3),
    "option_map": (option_map, 2), "option_and_then": (option_and_then, 2), "option_or": (lambda a, b: a if a[0] == "Some" else b, 2),
    "option_map_or": (lambda f, o, other: f(o[1]) if o[0] == "Some" else other, 3), "unwrap_or": (lambda o, other: o[1] if o[0] == "Some" else other, 2),
    "option_to_list": (lambda o: (o[1], NIL) if o[0] == "Some" else NIL, 1), "is_some": (lambda o: o[0] == "Some", 1), "is_none": (lambda o: o[0] == "None", 1),
    "result_ok": (lambda r: some(r[1]) if r[0] == "Ok" else NONE, 1),
    "utf8_lossy": (utf8_lossy, 1), "is_utf8": (is_utf8, 1), "chars": (chars, 1), "trim": (trim, 1), "lines": (lines, 1),
    "str_eq_ignore_ascii_case": (str_eq_ignore_ascii_case, 2), "encode_utf8": (lambda c: text(chr(c).encode()), 1),
    "to_ascii_lowercase": (to_ascii_lowercase, 1), "str_to_ascii_lowercase": (lambda xs: text(unlisted(xs).lower()), 1), "digit_value": (digit_value, 1), "is_digit": (is_digit, 2), "is_control": (is_control, 1),
    "is_ascii": (lambda b: b < 128, 1), "is_ascii_whitespace": (lambda b: b in b"\t\n\f\r ", 1), "is_ascii_alphabetic": (lambda b: 65 <= b < 91 or 97 <= b < 123, 1),
    "is_c0_control_or_space": (lambda b: b <= 32, 1), "trim_start": (lambda f, xs: drop(prefix_len(f, xs), xs), 2),
    "is_ascii_alphanumeric": (lambda b: 48 <= b < 58 or 65 <= b < 91 or 97 <= b < 123, 1), "IsAscii": (lambda xs: all(b < 128 for b in items(xs)), 1),
    "percent_encode": (percent_encode, 2), "percent_encode_byte": (lambda b: text(b"%%%02X" % b), 1), "percent_decode": (percent_decode, 1), "rsplit_once": (rsplit_once, 2), "url.specs.Input.trim_end": (trim_end, 2),
    "strip_tabs_and_new_lines": (lambda xs: listed(b for b in items(xs) if b not in b"\t\n\r"), 1),
    "trim_c0_control_and_space": (lambda xs: text(unlisted(xs).strip(EDGE)), 1), "split_scheme": (split_scheme, 1), "dot_count": (dot_count, 1),
    "number_sign": (35, None), "question_mark": (63, None), "slash": (47, None), "colon": (58, None), "space": (32, None),
    "canonical": (canonical, 1), "resolve": (resolve, 2), "host_key": (host_key, 1),
    "first_of": (lambda xs: some(xs[0]) if xs else NONE, 1), "matches": (matches, 3), "null": (b"null", None), "string": (quoted, 1), "number": (unlisted, 1), "boolean": (lambda b: b"true" if b else b"false", 1),
    "object": (lambda members: b"{" + members + b"}", 1), "no_members": (b"", None),
    "member": (lambda key, value, rest: joined(quoted(key) + b":" + value, rest), 3), "array": (lambda found: b"[" + found + b"]", 1),
    "no_items": (b"", None), "item": (joined, 2), "json_tokens": (lambda json: json, 1), "print": (text, 1),
    "All": (for_all, 2), "AllPass": (for_all, 2), "AllZip": (all_zip, 3), "MatchOption": (lambda o, p, q: q(o[1]) if o[0] == "Some" else p, 3),
    "IfSome": (lambda o, q: q(o[1]) if o[0] == "Some" else True, 2), "IsPermutation": (is_permutation, 2), "IsSortedBy": (is_sorted_by, 2),
    "IsSorted": (is_sorted, 2), "IsStrictlySortedBy": (is_strictly_sorted, 2),
    "IsSortedByKey": (lambda key, compare, xs: is_sorted(lambda a, b: compare(key(a), key(b)), xs), 3),
}
# What the functions in Python use in place of operators. No name in a definition begins so
HELPERS: Dict[str, Any] = {
    "do_append": append, "do_minus": minus, "do_quotient": quotient, "do_remainder": remainder, "do_same": same, "do_undecided": undecided, "do_record": Record,
}
