"""Random texts of files in a style: comments of it and of others, what looks like its marks, tags in
code, lines that stay in front, and line ends of all kinds."""
# The tags below are data: REUSE-IgnoreStart

TAGS = [
    "SPDX-License-Identifier: MIT", "SPDX-License-Identifier: GPL-2.0 OR ISC",
    "SPDX-License-Identifier:", "SPDX-FileCopyrightText: 2019 Jane Doe", "SPDX-FileContributor: Mary",
    "SPDX-FileCopyrightText:2019 - 2021 Joe", "Copyright (C) 2020 Corp", "© 2019 Jo", "Copyright",
    "SPDX-FileCopyrightText: 2024 Jane Doe", "Copyright\t2020 Jo",
]
CODE = [
    "x = 1", "", "", "\tindented\ttabs", "é = 'ü'", "print('SPDX-License-Identifier: MIT')",
    "SPDX-License-Identifier: Apache-2.0", "text with a\rlone CR", "   ", "end \t ",
    'echo "Copyright 2020 Jo"', "---", "...",
]
OTHERS = ["# a comment", "// SPDX-License-Identifier: ISC", "/* a", " */", "<!--", "-->", "-- x",
          "#!/bin/sh", "# coding: utf-8", "<?xml version='1'?>", "<?php"]
FREE = ["A tool.", "", "", "  indented", "* starred", "Licensed as is", "é", "# marked", "\ttab "]
BARRIERS = ["REUSE-IgnoreStart", "SPDX-SnippetBegin"]


def marks_of(style):
    """What the style's comments, first lines and front matter are made of."""
    found = [*style.marks, style.line_lead, style.lead, *style.first_lines,
             *(style.front_matter or [])]
    return [text for text in found if text]


def looks_like(chance, style):
    """A line that looks like a mark of the style: one or two of them, perhaps with more round them."""
    signs = marks_of(style)
    line = chance.choice(signs) + chance.choice(["", " ", "x", " x ", chance.choice(signs)])
    line = chance.choice(["", "", "", " ", "\t", "x"]) + line
    return line + chance.choice(["", "", " ", chance.choice(TAGS)])


def content(chance, has_tags):
    text = chance.choice(TAGS) if has_tags and chance.random() < 0.6 else chance.choice(FREE)
    return text + chance.choice(["", "", "", " ", "\t", "\r"])


def comment(chance, style, has_tags):
    """Lines of a comment of the style, often with tags."""
    inner = [content(chance, has_tags) for _ in range(chance.randint(1, 5))]
    if style.marker is not None and (style.opener is None or chance.random() < 0.5):
        return [chance.choice([style.line_lead, style.line_lead, style.marker]) + text for text in inner]
    if chance.random() < 0.2:
        blank = chance.choice(["", " "])
        return [style.opener + blank + inner[0] + blank + style.closer + chance.choice(["", " ", " x"])]
    odd = [style.lead, style.lead, style.lead, style.middle or "", "", "  ", "\t" + (style.middle or "")]
    lines = [chance.choice(odd) + text for text in inner]
    first = style.opener + chance.choice(["", "", " ", " A file", (style.middle or " ")[-1]])
    last = chance.choice([style.last, style.last, style.closer, "done " + style.closer])
    return [first] + lines + [last + chance.choice(["", "", "", " ", "\t", " x"])]


def front(chance, style):
    """Lines that may stay in front."""
    lines = []
    if chance.random() < 0.15:
        lines.append("#!/usr/bin/tool")
    if style.first_lines and chance.random() < 0.5:
        for _ in range(chance.randint(1, 3)):
            lines.append(chance.choice(style.first_lines) + chance.choice(["", "x", " = 1", TAGS[0]]))
    if style.front_matter and chance.random() < 0.6:
        first, last = style.front_matter
        lines.append(first + chance.choice(["", "", " ", "\t", "x"]))
        lines += [chance.choice(["t: 1", "", TAGS[0], BARRIERS[0]]) for _ in range(chance.randint(0, 3))]
        if chance.random() < 0.85:
            lines.append(last + chance.choice(["", "", " "]))
    return lines


def lines_of(chance, style):
    lines = front(chance, style)
    for _ in range(chance.choice([0, 1, 1, 2, 3])):
        kind = chance.random()
        if kind < 0.4:
            lines += comment(chance, style, chance.random() < 0.6)
        elif kind < 0.55:
            lines.append(looks_like(chance, style))
        elif kind < 0.65:
            lines.append(chance.choice(OTHERS))
        else:
            lines += [chance.choice(CODE) for _ in range(chance.randint(1, 3))]
    if chance.random() < 0.08:
        lines.insert(chance.randint(0, len(lines)), chance.choice(["", "# "]) + chance.choice(BARRIERS))
    if chance.random() < 0.2:
        lines += comment(chance, style, True)
    return lines


def text_of(chance, style, first=None):
    """The bytes of a file, whose first line is this one, if one is given."""
    lines = ([] if first is None else [first]) + lines_of(chance, style)
    end = chance.choice(["\n", "\n", "\n", "\r\n", "\r\n"])
    mixed = 0.1 if chance.random() < 0.2 else 0
    text = "".join(line + (chance.choice(["\n", "\r\n", "\r"]) if chance.random() < mixed else end)
                   for line in lines)
    if chance.random() < 0.15:
        text = text.removesuffix(end)
    return ("\ufeff" if chance.random() < 0.07 else "").encode() + text.encode()
