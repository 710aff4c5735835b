"""What amend makes of a REUSE.toml, told once more by docs/RULES.md alone. The tags
below are data: REUSE-IgnoreStart"""
import re
import tomllib

import retelling
from retelling import Refused

LICENCE, NOTICE = "SPDX-License-Identifier", "SPDX-FileCopyrightText"
LEAD = b"SPDX-FileCopyrightText: "
TOKENS = re.compile(
    r'#[^\n]*|"""(?:\\.|[^\\])*?"""(?:"{0,2})|\'\'\'.*?\'\'\'(?:\'{0,2})'
    r'|"(?:\\.|[^"\\\n])*"|\'[^\'\n]*\'|[A-Za-z0-9_-]+|.',
    re.S,
)
HEADER = re.compile(r"\[[ \t]*\[[ \t]*(annotations|\"annotations\"|'annotations')[ \t]*\]")


def value_of(key, value, amendments):
    """What becomes of a value, None where it goes."""
    old = value.encode()
    if key == LICENCE:
        new = amendments.licence(old)
        return None if new in amendments.removed["licence"] else new.decode()
    new = amendments.notice(LEAD + old)
    if new is None:
        return None
    return (new[len(LEAD):] if new.startswith(LEAD) else new).decode()


def written(spelling, value):
    """A string of this kind, on one line."""
    if spelling == "'":
        return f"'{value}'"
    short = {'"': '\\"', "\\": "\\\\", "\n": "\\n", "\t": "\\t"}
    return '"' + "".join(short.get(sign, sign) for sign in value) + '"'


def string_of(key, token, amendments):
    """The string in the place of another one, None where it goes."""
    value = tomllib.loads(f"x = {token}")["x"]
    new = value_of(key, value, amendments)
    if new is None or new == value:
        return None if new is None else token
    if token[:3] in ('"""', "'''"):
        raise Refused("cannot be amended")
    return written(token[0], new)


class Text:
    """A text that is gone through token by token, and what is made of it."""

    def __init__(self, text, amendments):
        self.amendments, self.made, self.is_annotation = amendments, [], False
        self.text, self.place = text, 0

    def next(self):
        token = TOKENS.match(self.text, self.place).group()
        self.place += len(token)
        return token

    def all(self):
        while self.place < len(self.text):
            self.line()
        return "".join(self.made)

    def line(self):
        """A line, or a value over several."""
        start = self.place
        token = self.next()
        while token in " \t\r":
            self.made.append(token)
            if self.place == len(self.text):
                return
            start, token = self.place, self.next()
        self.made.append(token)
        if token == "\n" or token.startswith("#"):
            return
        if token == "[":
            self.is_annotation = bool(HEADER.match(self.text, start))
        elif self.is_annotation and token.strip("\"'") in (LICENCE, NOTICE) and self.equals():
            self.value(token.strip("\"'"))
        self.rest()

    def equals(self):
        found = re.compile(r"[ \t]*=[ \t]*").match(self.text, self.place)
        if found:
            self.made.append(found.group())
            self.place = found.end()
        return bool(found)

    def value(self, key):
        token = self.next()
        if token[0] in "\"'":
            token = string_of(key, token, self.amendments)
            if token is None:
                raise Refused("cannot be amended")
        self.made.append(token)
        if token == "[":
            self.items(key)

    def items(self, key):
        is_gone = False
        while True:
            token = self.next()
            if token[0] in "\"'":
                token = string_of(key, token, self.amendments)
                is_gone = token is None
            elif token == "," and is_gone:
                token, is_gone = None, False
            self.made.append(token or "")
            if token == "]":
                return

    def rest(self):
        depth = 0
        while self.place < len(self.text):
            token = self.next()
            self.made.append(token)
            depth += (token in "[{") - (token in "]}")
            if token == "\n" and depth <= 0:
                return


def is_compared(value):
    """Whether a value has neither floating-point numbers nor dates and times."""
    if isinstance(value, dict):
        return all(map(is_compared, value.values()))
    if isinstance(value, list):
        return all(map(is_compared, value))
    return isinstance(value, (str, int))


def amended_values(key, value, amendments):
    if isinstance(value, str):
        new = value_of(key, value, amendments)
        if new is None:
            raise Refused("cannot be amended")
        return new
    if isinstance(value, list) and all(isinstance(item, str) for item in value):
        new = [value_of(key, item, amendments) for item in value]
        new = [item for item in new if item is not None]
        if value and not new:
            raise Refused("cannot be amended")
        return new
    return value


def amended(table, amendments):
    """The table with the values of its annotations amended."""
    found = table.get("annotations")
    if not isinstance(found, list):
        return table
    made = []
    for one in found:
        keys = {LICENCE, NOTICE} if isinstance(one, dict) else ()
        made.append({
            key: amended_values(key, value, amendments) if key in keys else value
            for key, value in one.items()
        } if keys else one)
    return {**table, "annotations": made}


def amend_table(file, amendments):
    """The file amended. The text is judged by what it is read as."""
    try:
        text = file.decode()
        table = tomllib.loads(text)
    except (UnicodeDecodeError, tomllib.TOMLDecodeError):
        raise Refused("cannot be amended") from None
    new = Text(text, amendments).all()
    try:
        read = tomllib.loads(new)
    except tomllib.TOMLDecodeError:
        raise Refused("cannot be amended") from None
    if not is_compared(table) or read != amended(table, amendments):
        raise Refused("cannot be amended")
    return file if read == table else new.encode()
