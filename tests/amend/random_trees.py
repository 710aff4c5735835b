"""Compares amend with its rules told once more, on random trees with random options. Arguments: the
program, a folder to work in, how many trees, the seed of the first, and perhaps `--everywhere`,
which each call has then. The tags below are data: REUSE-IgnoreStart"""
import random
import sys

import retelling
import runs

LICENCES = """GPL-2.0|GPL-2.0+|GPL-2.0-only|gpl-2.0|MIT|ISC|LicenseRef-GPL-2.0|GPL-2.0 OR MIT
GPL-2.0 AND GPL-2.0|(GPL-2.0 AND MIT)|GPL-2.0 WITH Classpath-exception-2.0|MIT AND(GPL-2.0 OR ISC)
GPL-2.0+ WITH GPL-2.0|GPL-2.0  or  MIT|((GPL-2.0))|GPL-2.0 AND|GPL-2.0, MIT|no expression
AND+|MIT WITH GPL-2.0 OR GPL-2.0""".replace("\n", "|").split("|")
OLD_LICENCES = LICENCES + ["GPL-2.0"] * 8 + ["Classpath-exception-2.0", "AND", " GPL-2.0 "]
NEW_LICENCES = """GPL-2.0-or-later|MIT OR ISC|(ISC)|X-1.0+|MIT|GPL-2.0|GPL-3.0-only WITH X-exception
MIT AND (ISC OR 0BSD)| Apache-2.0 |REUSE-IgnoreStart""".replace("\n", "|").split("|")
HOLDERS = """Jane Doe|Jane Doe <jane@example.com>|Jane|Joe Bloggs|(C) Corp|- 2019 Jo|2019|jane doe
Ünsal Ö.|Jane  Doe|Copyright Jane Doe|Jane Doe and others|Jane Doe, 2019|Joe Bloggs, 2012 & 2014
Jane, 2019, Joe|Jane ,2010-present|and Jane|by Joe|, Jane|Jane Doe
Jane Doe""".replace("\n", "|").split("|")
CONTRIBUTORS = ["Joe Bloggs", "Mary Major", "Jane Doe", "Joe  Bloggs", "joe bloggs", "Élan"]
YEARS = """2019|2019-2021|2019 - 2021|2024|1999 - 1999|2021-2019|24|2020,|2020 -2021|2019 - 2030
20201|2012, 2014-2016|2019-present|2010 and 2012|2012 & 2010,|2019 – 2021,2022|2001 -today
(c) 2019|(C) 2012, 2014|: 2019|2019 by|2019, by|2020 - 2019, 2021|2019-now, 2018|2012, and 2013
2019-2020x|© 2019""".replace("\n", "|").split("|")
NEW_HOLDERS = HOLDERS + ["Jane */ Doe", "A --> B", "Jane Roe", "Jane Roe", "O'Day", 'J "J" \\ Day']
FREE = ["A tool.", "", "  indented", "* starred", "Licensed as is", "SPDX-License-Identifier:"]
BODIES = ["x = 1", "", "# not a header", "// a comment", "/* block */", "text", "\tindented", "é"]
# What stands behind a header
GAPS = [[], [], [""], ["", ""], ["", " "], [" "]]
# Lines that hold a tag, and what may stand round it
ROUND = ["{}", "x = '{}'", '<a title="{}" />', "<a title='{}'>", "[{}] ::", "/* {} */", "(* {}*)",
         "<!-- {} -->", "1. {}", "é {}", "x = 1  # {}", '"""{}"""', "{} REUSE-IgnoreStart",
         "** {} **", "[{}]", "<p>{}</p>"]
END = "REUSE-Ignore" "End"
REGIONS = ["# REUSE-IgnoreStart", "# " + END, END + " REUSE-IgnoreStart",
           "# REUSE-IgnoreStart " + END]
FILES = """a.py b.c c.css d.html e.lua f.tex g.el h.ini i.ml j.vim k.json Makefile x.proto y.unknown
src/a.py src/b.h LICENSES/MIT.txt LICENSE z.PY deep/er/q.rs README.md""".split()


def tag(chance):
    kind = chance.random()
    if kind < 0.3:
        gap = chance.choice([" ", " ", "", "  "])
        return "SPDX-License-Identifier:" + gap + chance.choice(LICENCES)
    if kind < 0.45:
        return "SPDX-FileContributor:" + chance.choice([" ", " ", ""]) + chance.choice(CONTRIBUTORS)
    prefix = retelling.PREFIXES[chance.choice(sorted(retelling.PREFIXES))]
    years = chance.choice(YEARS) + chance.choice([" ", " ", "  "]) if chance.random() < 0.7 else ""
    gap = chance.choice([" ", " ", " ", "  ", ""]) if prefix.endswith(":") else " "
    return prefix + gap + years + chance.choice(HOLDERS)


def contents(chance):
    found = []
    for _ in range(chance.randint(1, 6)):
        found.append(tag(chance) if chance.random() < 0.75 else chance.choice(FREE))
    return [text + chance.choice(["", "", "", " ", "\t"]) for text in found]


def comment(chance, name, texts):
    """Lines of a comment with these contents, mostly."""
    style = retelling.STYLES[name]
    if style.line and (not style.block or chance.random() < 0.5):
        marker, lead = (part.decode() for part in style.line)
        return [(lead if chance.random() < 0.9 else marker) + text for text in texts]
    opener, middle, closer, lead = (part.decode() for part in style.block)
    if chance.random() < 0.1:
        return [opener + " " + texts[0] + closer]
    odd = ["", "  ", "\t*"]
    lines = [(lead if chance.random() < 0.8 else chance.choice(odd)) + text for text in texts]
    first = opener + (chance.choice(["", " ", "*", " A file"]))
    last = chance.choice(["", "", "", " done"]) + closer + chance.choice(["", "", " ", " x"])
    return [first] + lines + [last]


def body_line(chance):
    """A line of code, now and then with a tag, or about a region that isn't read."""
    kind = chance.random()
    if kind < 0.75:
        return chance.choice(BODIES)
    if kind < 0.85:
        return chance.choice(REGIONS)
    tags = [tag(chance) for _ in range(chance.choice([1, 1, 1, 2]))]
    return chance.choice(ROUND).format(" ".join(tags))


def source(chance, name, contents):
    lines = []
    if chance.random() < 0.15:
        lines.append("#!/usr/bin/tool")
    if chance.random() < 0.15:
        odd = ["# coding: utf-8", "<?xml version='1'?>", "<?php", "# coding=x"]
        lines.append(chance.choice(odd))
    if chance.random() < 0.2:
        lines.append(chance.choice(BODIES))
    if chance.random() < 0.07:
        lines.append("# " + chance.choice(["REUSE-IgnoreStart", "SPDX-SnippetBegin"]))
    if chance.random() < 0.9:
        lines += comment(chance, name, contents(chance)) + chance.choice(GAPS)
    for _ in range(chance.randint(0, 4)):
        lines.append(body_line(chance))
    if chance.random() < 0.2:
        lines += comment(chance, name, contents(chance))
    return lines


def file_of(chance, lines):
    end = chance.choice(["\n", "\n", "\n", "\r\n"])
    text = "".join(line + (end if chance.random() < 0.97 else "\n") for line in lines)
    if chance.random() < 0.15:
        text = text[: -len(end)]
    mark = retelling.MARK if chance.random() < 0.05 else b""
    return mark + text.encode()


def file_at(chance, path, own, contents):
    name = retelling.style_of(path, own)
    if chance.random() < 0.05:
        return b"SPDX-License-Identifier: GPL-2.0\n\0"
    if name in retelling.STYLES:
        return file_of(chance, source(chance, name, contents))
    return file_of(chance, contents(chance) + [body_line(chance)])


def quoted(chance, value):
    """A string of TOML that writes a value, mostly on one line."""
    kind = chance.random()
    if kind < 0.05:
        return f'"""{value}"""'
    if kind < 0.3 and "'" not in value:
        return f"'{value}'"
    value = value.replace("\\", "\\\\").replace('"', '\\"')
    if kind < 0.4:
        value = value.replace("J", "\\u004A")
    return f'"{value}"'


def table_value(chance, key):
    """A licence, or a notice without the lead of a comment."""
    if key == "SPDX-License-Identifier":
        return chance.choice(LICENCES)
    if key != "SPDX-FileCopyrightText":
        return chance.choice(["MIT", "2019 Jane Doe", "x"])
    prefix = chance.choice(["", "", "", "Copyright ", "(C) ", "\u00a9 "])
    years = chance.choice(YEARS) + " " if chance.random() < 0.7 else ""
    return prefix + years + chance.choice(HOLDERS)


def key_line(chance, key):
    """A line of a key, or several, with comments."""
    gap = chance.choice([" ", " ", "  "])
    name = chance.choice([key, key, key, f'"{key}"', f"'{key}'"])
    values = [quoted(chance, table_value(chance, key)) for _ in range(chance.randint(1, 3))]
    note = chance.choice(["", "", " # MIT", ' # "GPL-2.0" ['])
    if chance.random() < 0.5:
        return f"{name}{gap}={gap}{values[0]}{note}"
    if chance.random() < 0.5:
        return f"{name} = [{chance.choice([', ', ',']).join(values)}]{note}"
    end = chance.choice([",", ""])
    lines = [f"  {value}," for value in values[:-1]] + [f"  {values[-1]}{end}"]
    return "\n".join([f"{name} = [{note}"] + lines + ["]"])


KEYS = "SPDX-License-Identifier SPDX-FileCopyrightText SPDX-FileComment precedence path".split()
ODD = ["x = 1.5", "x = [[1, 2], {a = 'MIT'}]", "not TOML", "x = 2026-01-01", "é = 'MIT'",
       "annotations = [{SPDX-License-Identifier = 'GPL-2.0'}]"]


def table_of(chance):
    """A REUSE.toml, mostly of the usual shape."""
    lines = ["version = 1"] if chance.random() < 0.9 else []
    if chance.random() < 0.15:
        lines.append(key_line(chance, "SPDX-License-Identifier"))
    if chance.random() < 0.1:
        lines.append(chance.choice(ODD))
    for _ in range(chance.randint(1, 3)):
        lines += chance.choice([[], [""], ["# GPL-2.0"]])
        heads = ["[[annotations]]", "[[annotations]]", "[[ 'annotations' ]] # one", "[[other]]"]
        lines.append(chance.choice(heads))
        keys = chance.sample(KEYS, chance.randint(1, 5))
        lines += [key_line(chance, key) for key in keys]
    end = chance.choice(["\n", "\n", "\r\n"])
    return "\n".join(lines + [""]).replace("\n", end).encode()


def tree_of(chance, contents=contents):
    """A tree of files whose comments have contents made by this function, and its own styles."""
    own = {".proto": chance.choice(["c", "python"])} if chance.random() < 0.3 else {}
    tree = {}
    if own:
        text = f'version = 1\n[styles]\n".proto" = "{own[".proto"]}"\n'
        tree[".reuse/styles.toml"] = text.encode()
    for path in chance.sample(FILES, chance.randint(2, 8)):
        tree[path] = file_at(chance, path, own, contents)
        if chance.random() < 0.15:
            tree[path + ".license"] = file_of(chance, contents(chance))
            if chance.random() < 0.05:
                tree[path + ".license"] = b"SPDX-License-Identifier: MIT\xff\n"
    if chance.random() < 0.4:
        tree["REUSE.toml"] = table_of(chance)
        if chance.random() < 0.1:
            tree["REUSE.toml.license"] = file_of(chance, contents(chance))
    for folder in "src", "src/deep", "LICENSES":
        if chance.random() < 0.1:
            tree[f"{folder}/REUSE.toml"] = table_of(chance)
    return tree, own


def options_of(chance, always):
    one, options = chance.choice, list(always)
    for _ in range(chance.randint(2, 5)):
        kind = chance.random()
        if kind < 0.35:
            options += ["--replace-license", one(OLD_LICENCES), one(NEW_LICENCES)]
        elif kind < 0.45:
            options += ["--remove-license", one(LICENCES)]
        elif kind < 0.6:
            options += ["--replace-holder", " " + one(HOLDERS), " " + one(NEW_HOLDERS)]
        elif kind < 0.65:
            options += ["--remove-holder", " " + one(HOLDERS)]
        elif kind < 0.75:
            options += ["--replace-contributor", one(CONTRIBUTORS), one(CONTRIBUTORS)]
        elif kind < 0.85:
            options += ["--remove-contributor", one(CONTRIBUTORS)]
        elif kind < 0.95 and "--until" not in options:
            options += ["--until", chance.choice(["2024", "2026", "2000", "2020"])]
        elif "--copyright-prefix" not in options:
            options += ["--copyright-prefix", chance.choice(sorted(retelling.PREFIXES))]
    if ("--until" in options or "--copyright-prefix" in options) and chance.random() < 0.5:
        options += ["--holder", " " + chance.choice(HOLDERS)]
    if options == always:
        options += ["--until", "2026"]
    if chance.random() < 0.1 and not always:
        options += ["--style", chance.choice(sorted(retelling.STYLES))]
    return options


def main():
    program, room, count, seed = sys.argv[1], sys.argv[2], int(sys.argv[3]), int(sys.argv[4])
    tally = {"changed": 0, "unchanged": 0, "refused": 0, "left": 0}
    for number in range(seed, seed + count):
        chance = random.Random(number)
        tree, own = tree_of(chance)
        options = options_of(chance, sys.argv[5:])
        fault, became = runs.fault_of(program, room + "/tree", tree, options, own)
        if fault:
            sys.exit(f"tree {number}, {options}: {fault}")
        for word in became:
            tally[word] += 1
    if count >= 100 and min(tally.values()) < 1:
        sys.exit(f"chance has no tree of each kind: {tally}")
    print(", ".join(f"{count} {became}" for became, count in tally.items()))


if __name__ == "__main__":
    main()
