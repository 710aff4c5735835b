"""Which texts amend leaves: whether one still has a value that the call names, told once more by
docs/RULES.md alone. The tags below are data: REUSE-IgnoreStart"""
import re

import notices
from retelling import (
    BLANKS, CONTRIBUTOR, LICENCE, MARK, PREFIXES, has_prefix, is_expression, is_name, is_text,
    lines_of, pieces_of,
)

# In two parts, since this file is one whose tags are ignored
START, END = b"REUSE-IgnoreStart", b"REUSE-Ignore" b"End"
SPDX = PREFIXES["spdx"].encode()
MARKS = bytes(byte for byte in range(128) if not chr(byte).isalnum())
CLOSER = re.compile(rb"(?:\*/|-->|\*\)|(?<=[\"'])[ \t\r]*/*>|\][ \t\r]*::)\Z")
LONGEST = 16 * 1024 * 1024


def ended(text):
    """A text without what may stand behind a value: closers, blanks and quotes."""
    text = text.rstrip(BLANKS + b"\"'")
    found = CLOSER.search(text)
    return ended(text[: found.start()]) if found else text


def value_behind(lead, line):
    """The value behind the first of some tags of a kind in a line, if there is one."""
    place = line.find(lead)
    return None if place < 0 else ended(line[place + len(lead):].lstrip(BLANKS))


def notice_of(line):
    place = line.find(SPDX)
    return ended(line.lstrip(MARKS) if place < 0 else line[place:])


def names_licence(value, amendments):
    for old, new in amendments.replaced["licence"]:
        if value == new:
            continue
        if value == old or is_name(old) and is_expression(value) and old in pieces_of(value):
            return True
    return value in amendments.removed["licence"]


def names_text(part, text, amendments):
    for old, new in amendments.replaced[part]:
        if text == old != new:
            return True
    return text in amendments.removed[part]


def names_in_line(line, amendments):
    licence, contributor = value_behind(LICENCE, line), value_behind(CONTRIBUTOR, line)
    if licence is not None and names_licence(licence, amendments):
        return True
    if contributor is not None and names_text("contributor", contributor, amendments):
        return True
    notice = notice_of(line)
    if not notices.prefix_of(notice, PREFIXES, has_prefix):
        return False
    holder = notices.read(notice, PREFIXES, has_prefix).holder
    return names_text("holder", holder, amendments)


def read_parts(text):
    """Of each line what is read of it: nothing in a region that isn't."""
    ignored = False
    for line, _ in lines_of(text[len(MARK):] if text.startswith(MARK) else text):
        if ignored:
            ignored = END not in line
            continue
        part, start, rest = line.partition(START)
        yield part
        ignored = bool(start) and END not in rest


def still_names(text, amendments):
    """Whether bytes are a text that still has a value which the amendments name."""
    return len(text) <= LONGEST and is_text(text) and any(
        names_in_line(part, amendments) for part in read_parts(text)
    )
