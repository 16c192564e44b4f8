"""Sites of tests/real_sites.py."""

from __future__ import annotations

from typing import FrozenSet, NamedTuple, Optional, Tuple


class Site(NamedTuple):
    """A folder, the URL of its top, and links from this URL from which the site is reached, or none for the top."""

    name: str
    folder: str
    base: str
    starts: Tuple[str, ...] = ()
    broken: Optional[FrozenSet[str]] = None  # the targets of all broken links, without the base, if they are known
    leaving: FrozenSet[str] = frozenset()  # the URLs of all links that leave the base, if the broken links are known
    fallback: bool = False  # whether links omit the suffix .html
