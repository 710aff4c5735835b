"""What amend makes of a text with --everywhere, told once more by docs/RULES.md alone. The tags
below are data: REUSE-IgnoreStart"""
import re

import left
import notices
from retelling import BLANKS, CONTRIBUTOR, LICENCE, MARK, PREFIXES, has_prefix, is_text, lines_of

NOTICES = b"Copyright", "©".encode()
# What may stand round a tag that takes its line with it
LINE_MARK = re.compile(rb"(?:([#/*;%-])\1*)?\Z")
COMMENTS = [(b"/*", b"*/"), (b"<!--", b"-->"), (b"(*", b"*)")]


def places_of(kind, part):
    """Where a tag of a kind begins in what is read of a line, and where its value does."""
    if kind == "notice":
        place = part.find(left.SPDX)
        if place < 0:
            place = len(part) - len(part.lstrip(left.MARKS))
            if not part[place:].startswith(NOTICES):
                return None
        return place, place
    lead = LICENCE if kind == "licence" else CONTRIBUTOR
    place = part.find(lead)
    if place < 0:
        return None
    return place, len(part) - len(part[place + len(lead):].lstrip(BLANKS))


def amend_value(kind, value, amendments):
    """A value by itself, or None where it goes."""
    if kind == "notice":
        if not notices.prefix_of(value, PREFIXES, has_prefix):
            return value
        return amendments.notice(value)
    made = amendments.licence(value) if kind == "licence" else amendments.text(kind, value)
    return None if made in amendments.removed[kind] else made


def is_bare(front, behind):
    """Whether a line says nothing without the tag between these two."""
    front, behind = front.strip(BLANKS), behind.strip(BLANKS)
    return bool(LINE_MARK.match(front)) and not behind or (front, behind) in COMMENTS


def read_in(line):
    """What is read of a line, by the kinds of its tags."""
    part = line.partition(left.START)[0]
    places = {kind: places_of(kind, part) for kind in ("licence", "contributor", "notice")}
    return {kind: left.ended(part[place[1]:]) for kind, place in places.items() if place}


def amend_line(line, amendments):
    """A line, or None where it goes. Notes whether each tag is read again with what was written: the
    prefix of a notice that goes may be what hid another one."""
    said, wanted = line, dict(read_in(line))
    for kind in "licence", "contributor", "notice":
        part = line.partition(left.START)[0]
        places = places_of(kind, part)
        if places is None:
            continue
        start, place = places
        value = left.ended(part[place:])
        behind = line[place + len(value):]
        made = amend_value(kind, value, amendments)
        if made is not None:
            line = line[:place] + made + behind
            wanted[kind] = made
        elif is_bare(line[:start], behind):
            return None
    amendments.reads_back = amendments.reads_back and (line == said or read_in(line) == wanted)
    return line


def amend_text(text, amendments):
    """A file, of which what isn't a text stays."""
    if not is_text(text):
        return text
    mark = MARK if text.startswith(MARK) else b""
    made, ignored = [mark], False
    for line, end in lines_of(text[len(mark):]):
        kept = line if ignored else amend_line(line, amendments)
        if kept is not None:
            made.append(kept + end)
        region = line if ignored else line.partition(left.START)[2]
        ignored = (ignored or left.START in line) and left.END not in region
    return b"".join(made)
