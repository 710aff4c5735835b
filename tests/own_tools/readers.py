#!/usr/bin/env python3
"""Reads a file in one way, and prints what it is to its reader, without comments. Two files are the
same to a reader if this prints the same. Ends with status 1 if the file isn't read, and with 77 if
the reader isn't there.
usage: readers.py KIND FILE"""
import ast
import configparser
import io
import json
import re
import sys
import xml.etree.ElementTree as tree


def front_matter(text):
    """The lines between the two lines of front matter, of which the first has to come first."""
    found = re.match(r"---[ \t]*\n(.*?\n)?---[ \t]*(\n|$)", text, re.S)
    return found and (found.group(1) or "")


def ini(text):
    """The sections, as Python's tools and units of systemd have them, and what stands above."""
    parser = configparser.RawConfigParser(strict=False, allow_no_value=True)
    parser.optionxform = str
    parser.read_string("[top]\n" + text)
    return {name: dict(parser[name]) for name in parser.sections()}


def yaml(text):
    import yaml as library
    return list(library.safe_load_all(text))


def toml(text):
    import tomllib
    return tomllib.loads(text)


def jinja(text):
    import jinja2
    return jinja2.Environment(keep_trailing_newline=True).from_string(text).render(x="<x>")


def mako(text):
    from mako.template import Template
    return Template(text).render(x=1).lstrip("\n")


def rst(text):
    """The document without its comments."""
    from docutils import core, nodes
    document = core.publish_doctree(text, settings_overrides={"report_level": 5})
    for node in list(document.traverse(nodes.comment)):
        node.parent.remove(node)
    return document.pformat()


FIRST = (r"@charset |# ?(syntax|escape|check)=|.*-[*]-|#cloud-config|@echo off"
         r"|cabal-version:|[(]lang ")


def first(text):
    """The first line, if it does its work only there."""
    line = text.split("\n", 1)[0]
    return line if re.match(FIRST, line) else ""


def lines(text):
    """The lines that aren't comments, of lists of what is to be ignored and the like."""
    return [line for line in text.split("\n") if line and not line.startswith("#")]


KINDS = {
    "ast": lambda text: ast.dump(ast.parse(text)),
    "json": json.loads,
    "xml": lambda text: tree.tostring(tree.fromstring(text.encode())),
    "front-matter": front_matter,
    "first": first,
    "ini": ini,
    "jinja": jinja,
    "lines": lines,
    "mako": mako,
    "rst": rst,
    "toml": toml,
    "yaml": yaml,
}


def main():
    kind, path = sys.argv[1:]
    try:
        with io.open(path, encoding="utf-8") as file:
            print(repr(KINDS[kind](file.read())))
    except ImportError as error:
        print(error, file=sys.stderr)
        sys.exit(77)


main()
