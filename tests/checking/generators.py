"""Small sites that generators make in their usual URL styles. The sources have a few links to pages, images and anchors that do not exist."""

from __future__ import annotations

import base64
import shutil
import subprocess
from pathlib import Path
from typing import Callable, Dict, FrozenSet, Iterator, List, NamedTuple, Tuple

from checking.sites import Site

BASE = "http://docs.test/"
DOT = base64.b64decode("R0lGODlhAQABAIAAAAAAAP///yH5BAEAAAAALAAAAAABAAEAAAIBRAA7")  # the smallest image


class Style(NamedTuple):
    """A URL style of a generator: what differs in its sources and its command, and the targets of broken links on a plain server."""

    name: str
    settings: Dict[str, str]
    broken: FrozenSet[str]
    path: str = ""  # the path of the site on its host
    fallback: bool = False  # whether links omit the suffix .html
    leaving: FrozenSet[str] = frozenset()  # the targets, on the host of the site, that are not below its path


def style(name: str, broken: str, path: str = "", leaving: str = "", **settings: str) -> Style:
    """A style with these settings, broken links, and links that leave the path of the site."""
    return Style(name, settings, frozenset(broken.split()), path, leaving=frozenset(leaving.split()))


def write(top: Path, files: Dict[str, str]) -> None:
    """Writes files and a small image."""
    for name, text in {**files, "img/dot.gif": ""}.items():
        path = top / name
        path.parent.mkdir(parents=True, exist_ok=True)
        path.write_bytes(DOT if name.endswith(".gif") else text.encode())


class NotMade(Exception):
    """Raised if a generator fails, for example because a theme is not installed."""


def run(words: List[str], folder: Path) -> None:
    """Runs a generator."""
    done = subprocess.run(words, cwd=folder, stdin=subprocess.DEVNULL, stdout=subprocess.PIPE, stderr=subprocess.STDOUT, check=False)
    if done.returncode:
        lines = done.stdout.decode(errors="replace").split("\n")
        raise NotMade(f"exit status {done.returncode}: {next(filter(None, reversed(lines)), '')}")


MKDOCS = {
    "index.md": "# Home\n\n[About](about.md), [its end](about.md#the-end), [start](guide/start.md), ![dot](img/dot.gif)\n\n"
    "[gone](gone.md), [nowhere](about.md#nowhere), ![gone](img/gone.gif)\n",
    "about.md": "# About\n\n[Home](index.md)\n\n## The end\n\n[The end](#the-end), [missing](#missing)\n",
    "guide/start.md": "# Start\n\n[Home](../index.md), [about](../about.md), [next](next.md)\n",
    "guide/next.md": '# Next\n\n<a href="/about/">About</a>\n',
}
MKDOCS_STYLES = [
    style("folders", "about/#missing about/#nowhere gone.md img/gone.gif", theme="mkdocs", folders="true"),
    style("files", "about.html#missing about.html#nowhere about/ gone.md img/gone.gif", theme="mkdocs", folders="false"),
    # Debian's package of this theme lacks two scripts
    style(
        "readthedocs", "about/#missing about/#nowhere gone.md img/gone.gif js/jquery-3.6.0.min.js js/theme_extra.js",
        theme="readthedocs", folders="true",
    ),
    style("material", "about/#missing about/#nowhere gone.md img/gone.gif", theme="material", folders="true"),
]


def mkdocs(top: Path, kind: Style) -> Path:
    """A site by mkdocs."""
    write(top / "docs", MKDOCS)
    text = f"site_name: Dots\nsite_url: {BASE}\nuse_directory_urls: {kind.settings['folders']}\ntheme:\n  name: {kind.settings['theme']}\n"
    (top / "mkdocs.yml").write_text(text, "utf-8")
    run(["mkdocs", "-q", "build"], top)
    return top / "site"


SPHINX = {
    "index.rst": "Home\n====\n\n.. toctree::\n\n   about\n   guide/start\n\n:ref:`end`, `gone <gone.html>`_, `nowhere <about.html#nowhere>`_\n\n"
    ".. image:: img/dot.gif\n\n.. raw:: html\n\n   <img src=\"img/gone.gif\">\n",
    "about.rst": "About\n=====\n\n:doc:`index`\n\n.. _end:\n\nThe end\n-------\n\n:download:`img/dot.gif`\n",
    "guide/start.rst": "Start\n=====\n\n:doc:`/about`, :doc:`next`\n",
    "guide/next.rst": "Next\n====\n\n.. code-block:: python\n\n   print(1)\n\n`about <../about.html>`__\n",
}
SPHINX_STYLES = [
    style("html", "about.html#nowhere gone.html img/gone.gif", builder="html", theme="alabaster"),
    style("folders", "about.html gone.html guide/about.html img/gone.gif", builder="dirhtml", theme="alabaster"),
    # This builder links to pages that it does not make
    style(
        "one-page", "about.html gone.html img/gone.gif genindex.html search.html index.html#document-index index.html#document-guide/next",
        builder="singlehtml", theme="alabaster",
    ),
    style("readthedocs", "about.html#nowhere gone.html img/gone.gif", builder="html", theme="sphinx_rtd_theme"),
]


def sphinx(top: Path, kind: Style) -> Path:
    """A site by Sphinx."""
    write(top / "source", SPHINX)
    (top / "source/conf.py").write_text(f"project = 'Dots'\nhtml_theme = '{kind.settings['theme']}'\n", "utf-8")
    run(["sphinx-build", "-q", "-b", kind.settings["builder"], "source", "site"], top)
    return top / "site"


HUGO = {
    "content/_index.md": '---\ntitle: Home\n---\n[About]({{< ref "about" >}}), [gone](gone/), [nowhere]({{< relref "about" >}}#nowhere)\n\n'
    "![dot](/img/dot.gif)\n",
    "content/about.md": '---\ntitle: About\ntags: [dots]\n---\n## The end\n\n[The end](#the-end), [missing](#missing)\n\n![gone](gone.gif)\n',
    "content/posts/first.md": '---\ntitle: First\ntags: [dots]\n---\n[About]({{< relref "/about" >}}), [second]({{< ref "second" >}})\n',
    "content/posts/second.md": "---\ntitle: Second\n---\n[First](../first)\n",
    "layouts/_default/baseof.html": '<!doctype html><html><head><title>{{ .Title }}</title><link rel="canonical" href="{{ .Permalink }}">'
    '<link rel="stylesheet" href="{{ "style.css" | relURL }}"></head>'
    '<body><a href="{{ "/" | relURL }}">Home</a> {{ block "main" . }}{{ end }}</body></html>\n',
    "layouts/_default/single.html": '{{ define "main" }}<h1>{{ .Title }}</h1>{{ .Content }}'
    '{{ range .GetTerms "tags" }}<a href="{{ .RelPermalink }}">{{ .Title }}</a>{{ end }}{{ end }}\n',
    "layouts/_default/list.html": '{{ define "main" }}<h1>{{ .Title }}</h1>{{ .Content }}'
    '{{ range .Pages }}<a href="{{ .RelPermalink }}">{{ .Title }}</a>{{ end }}{{ end }}\n',
    "layouts/404.html": '{{ define "main" }}<a href="/nothing/">Nothing</a>{{ end }}\n',
    "static/style.css": "p { color: black }\n",
}
HUGO_STYLES = [
    style("folders", "about/#missing about/#nowhere about/gone.gif gone/ nothing/"),
    style("files", "about.html#missing about.html#nowhere gone.gif gone/ first nothing/", uglyURLs="true"),
    style("relative", "about/#missing about/#nowhere about/gone.gif gone/ nothing/", relativeURLs="true"),
    # `relURL` does not add the path of the site to a path that begins with a slash
    style("path", "about/#missing about/#nowhere about/gone.gif gone/", "blog/", "/ /img/dot.gif /nothing/"),
    # All links are URLs with a host, so without BASE they lead to another site
    style("canonical", "about/#missing about/#nowhere about/gone.gif gone/ nothing/", "blog/", canonifyURLs="true"),
]


def hugo(top: Path, kind: Style) -> Path:
    """A site by Hugo."""
    write(top / "static", {})
    write(top, HUGO)
    names = {"title": '"Dots"', "baseURL": f'"{BASE}{kind.path}"', **kind.settings}
    (top / "hugo.toml").write_text("".join(f"{name} = {value}\n" for name, value in names.items()), "utf-8")
    run(["hugo", "--quiet", "--config", "hugo.toml", "--destination", "site"], top)
    return top / "site"


JEKYLL = {
    "index.md": "---\ntitle: Home\nlayout: page\n---\n[About]({{ '/about' | append: site.suffix | relative_url }}), [gone](gone.html), "
    "[nowhere]({% link about.md %}#nowhere), ![dot]({{ '/img/dot.gif' | relative_url }})\n\n"
    "{% for post in site.posts %}[{{ post.title }}]({{ post.url | relative_url }}) {% endfor %}\n",
    "about.md": "---\ntitle: About\nlayout: page\n---\n## The end\n\n[The end](#the-end), [missing](#missing), ![gone](gone.gif)\n",
    "_posts/2026-01-02-first.md": "---\ntitle: First\nlayout: page\ncategories: dots\n---\n[Second]({% post_url 2026-01-03-second %})\n",
    "_posts/2026-01-03-second.md": "---\ntitle: Second\nlayout: page\n---\n[Home]({{ '/' | relative_url }})\n",
    "_layouts/page.html": '<!doctype html><html><head><title>{{ page.title }}</title><link rel="canonical" href="{{ page.url | absolute_url }}">'
    '<link rel="stylesheet" href="{{ "/style.css" | relative_url }}"></head><body>{{ content }}</body></html>\n',
    "style.css": "p { color: black }\n",
}
JEKYLL_STYLES = [
    style("files", "about.html#missing about.html#nowhere gone.gif gone.html", permalink="none", suffix=".html"),
    style("folders", "about/#missing about/#nowhere about/gone.gif gone.html", permalink="pretty", suffix="/"),
    style("path", "about/#missing about/#nowhere about/gone.gif gone.html", "proj/", permalink="pretty", suffix="/"),
    style("without-suffix", "about.html#missing about.html#nowhere gone.gif gone.html", permalink="none", suffix="")._replace(fallback=True),
]


def jekyll(top: Path, kind: Style) -> Path:
    """A site by Jekyll."""
    write(top / "source", JEKYLL)
    path = f"/{kind.path.rstrip('/')}" if kind.path else ""
    names = {"url": BASE.rstrip("/"), "baseurl": f'"{path}"', "permalink": kind.settings["permalink"], "suffix": f'"{kind.settings["suffix"]}"'}
    (top / "source/_config.yml").write_text("".join(f"{name}: {value}\n" for name, value in names.items()), "utf-8")
    run(["jekyll", "build", "--quiet", "--source", "source", "--destination", "site"], top)
    return top / "site"


DOCBOOK = {
    "book.xml": """<?xml version="1.0"?>
<!DOCTYPE book PUBLIC "-//OASIS//DTD DocBook XML V4.5//EN" "http://www.oasis-open.org/docbook/xml/4.5/docbookx.dtd">
<book><title>Dots</title>
<chapter id="one"><title>One</title><para><xref linkend="two"/> <ulink url="gone.html">gone</ulink>
<inlinemediaobject><imageobject><imagedata fileref="img/gone.gif"/></imageobject></inlinemediaobject></para>
<sect1 id="first"><title>First</title><para>A footnote.<footnote><para>Small.</para></footnote></para></sect1></chapter>
<chapter id="two"><title>Two</title><para><link linkend="first">the first</link> <indexterm><primary>dot</primary></indexterm>
<inlinemediaobject><imageobject><imagedata fileref="img/dot.gif"/></imageobject></inlinemediaobject></para></chapter>
<index/></book>
""",
}
DOCBOOK_STYLES = [
    style("chunks", "gone.html img/gone.gif", format="xhtml"),
    style("one-page", "gone.html img/gone.gif", format="xhtml-nochunks"),
    style("xhtml", "gone.html img/gone.gif", format="xhtml", suffix=".xhtml"),
]


def docbook(top: Path, kind: Style) -> Path:
    """A site by DocBook's stylesheets."""
    write(top, DOCBOOK)
    write(top / "site", {})
    suffix = ["--stringparam", f"html.ext={kind.settings['suffix']}"] if "suffix" in kind.settings else []
    run(["xmlto", "--skip-validation", *suffix, "-o", "site", kind.settings["format"], "book.xml"], top)
    one = top / "site/book.html"
    if one.exists():
        one.rename(top / "site/index.html")
    return top / "site"


GENERATORS: Dict[str, Tuple[str, Callable[[Path, Style], Path], List[Style]]] = {
    "mkdocs": ("mkdocs", mkdocs, MKDOCS_STYLES),
    "sphinx": ("sphinx-build", sphinx, SPHINX_STYLES),
    "hugo": ("hugo", hugo, HUGO_STYLES),
    "jekyll": ("jekyll", jekyll, JEKYLL_STYLES),
    "docbook": ("xmlto", docbook, DOCBOOK_STYLES),
}


def site_of(name: str, folder: Path, kind: Style) -> Site:
    """The site of this style in a folder."""
    leaving = frozenset(BASE[:-1] + path for path in kind.leaving)
    return Site(name, str(folder), BASE + kind.path, (), kind.broken, leaving, kind.fallback)


def sites(scratch: Path, names: List[str]) -> Iterator[Site]:
    """The sites of the generators that are installed and do not fail, in folders below `scratch`."""
    for name, (command, make, styles) in GENERATORS.items():
        if names and name not in names:
            continue
        if not shutil.which(command):
            print(f"{name}: skipped, {command} is not installed", flush=True)
            continue
        for kind in styles:
            top = scratch / name / kind.name
            top.mkdir(parents=True)
            try:
                yield site_of(f"{name} {kind.name}", make(top, kind), kind)
            except NotMade as error:
                print(f"{name} {kind.name}: skipped, {error}", flush=True)
