"""What annotate makes of a file with a comment of a tree's own, told once more by docs/RULES.md
alone. Tags and lines are told in tests/amend. The tags below are data: REUSE-IgnoreStart"""
import functools
import os
import sys

sys.path.insert(0, os.path.join(os.path.dirname(os.path.abspath(__file__)), "..", "amend"))
import retelling as tags
from annotating import Additions, joined, place_behind, put

BLANKS, MARK = tags.BLANKS, tags.MARK


class Refused(Exception):
    """A refusal of one file, by its text."""


class Marks:
    """The marks of a style as bytes."""

    def __init__(self, style):
        def coded(text):
            return None if text is None else text.encode()

        self.marker, self.line_lead = coded(style.marker), coded(style.line_lead)
        self.opener, self.closer, self.middle = map(coded, (style.opener, style.closer, style.middle))
        self.last, self.lead = coded(style.last), coded(style.lead)
        self.punctuation = style.punctuation.encode()
        self.first_lines = tuple(first.encode() for first in style.first_lines)
        self.front_matter = style.front_matter and [text.encode() for text in style.front_matter]


class Header:
    """A header block by its place among the file's bytes."""

    def __init__(self, start, end, form, info):
        self.start, self.end, self.form, self.info = start, end, form, info


# ---- the lines of a file

def split(file):
    """The lines, and the place of each and of the end."""
    mark = len(MARK) if file.startswith(MARK) else 0
    lines = tags.lines_of(file[mark:])
    places = [mark]
    for content, end in lines:
        places.append(places[-1] + len(content) + len(end))
    return lines, places


def prefix_count(contents, marks):
    """How many lines stay in front: an interpreter line, first lines, front matter."""
    count = 1 if contents and contents[0].startswith(b"#!") else 0
    while count < len(contents) and contents[count].startswith(marks.first_lines):
        count += 1
    if marks.front_matter and count < len(contents):
        first, last = marks.front_matter
        if contents[count].rstrip(BLANKS) == first:
            for place in range(count + 1, len(contents)):
                if contents[place].rstrip(BLANKS) == last:
                    return place + 1
    return count


# ---- comments

def block_at(opened, place, marks):
    """The line behind a comment over several lines that begins at this one, and its contents."""
    line = opened[place]
    if marks.opener is None or not line.startswith(marks.opener):
        return None
    texts = [line[len(marks.opener):]] + opened[place + 1:]
    for count, text in enumerate(texts):
        found = text.find(marks.closer)
        if found >= 0:
            break
    else:
        return None
    if text[found + len(marks.closer):].strip(BLANKS):
        return None
    texts = texts[: count + 1]
    texts[count] = text[:found].rstrip(BLANKS)
    if marks.middle is not None:
        texts[1:] = [without_middle(text, marks.middle.lstrip(b" \t")) for text in texts[1:]]
    texts = [text.rstrip(b"\r") for text in texts]
    fillers = BLANKS + marks.punctuation
    kept = [text for k, text in enumerate(texts) if 0 < k < count or text.strip(fillers)]
    return place + count + 1, "multi", kept


def without_middle(text, sign):
    rest = text.lstrip(b" \t")
    return rest[len(sign):] if rest.startswith(sign) else text


def run_at(opened, place, marks):
    """The same of comments on single lines."""
    end = place
    while marks.marker is not None and end < len(opened) and opened[end].startswith(marks.marker):
        end += 1
    texts = [line[len(marks.marker):].rstrip(b"\r") for line in opened[place:end]]
    return (end, "single", texts) if texts else None


@functools.lru_cache(maxsize=4096)
def header_of(file, marks):
    """The header block of a file, or None. It is remembered, so nobody may change it."""
    lines, places = split(file)
    contents = [content for content, _ in lines]
    place = prefix_count(contents, marks)
    barriers = [k for k in range(place, len(lines)) if tags.is_barrier(contents[k])]
    opened = contents[: barriers[0]] if barriers else contents
    while place < len(opened):
        found = block_at(opened, place, marks) or run_at(opened, place, marks)
        if not found:
            place += 1
            continue
        end, form, texts = found
        if any(tags.tag_of(text, marks.punctuation)[0] for text in texts):
            return Header(places[place], places[end], form, tags.Info(texts, marks.punctuation))
        place = end
    return None


# ---- annotate

def block_lines(info, form, marks):
    lead, mark = marks.line_lead, marks.marker
    if form == "multi":
        lead, mark = marks.lead, marks.middle or b""
    separator = lead.rstrip(BLANKS)
    lines = [lead + text for text in sorted(info.notices)]
    lines += [lead + tags.CONTRIBUTOR + b" " + text for text in sorted(info.contributors)]
    if lines and info.licences:
        lines.append(separator)
    lines += [lead + tags.LICENCE + b" " + text for text in sorted(info.licences)]
    if info.free:
        lines.append(separator)
    lines += [mark + text for text in info.free]
    if form == "multi":
        if any(marks.closer in line for line in lines):
            raise Refused("holds the closer")
        lines = [marks.opener] + lines + [marks.last]
    return lines


def place_of(file, marks):
    """Where a new block goes: its place, and whether endings go before it and behind it."""
    lines, places = split(file)
    count = prefix_count([content for content, _ in lines], marks)
    return place_behind(lines, places[0], count)


def annotated(file, marks, additions):
    """The file that annotate makes, or `Refused`."""
    found = header_of(file, marks)
    form = additions.form or (found and found.form)
    form = form or ("multi" if marks.marker is None else "single")
    if (marks.marker if form == "single" else marks.opener) is None:
        raise Refused("no such form")
    replaced = found if additions.replaces else None
    info = joined(replaced and replaced.info, additions)
    kind = tags.kind_of(split(file)[0])
    text = b"".join(line + kind for line in block_lines(info, form, marks))
    made, start = put(file, text, kind, replaced, place_of(file, marks))
    again = header_of(made, marks)
    if not again or (again.start, again.end) != (start, start + len(text)):
        raise Refused("block would not be found again")
    return made
