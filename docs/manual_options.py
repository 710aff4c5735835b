#!/usr/bin/env python3
"""Makes the lists of options, prefixes and styles of the manual page of those in docs/REFERENCE.md.

In share/man/man1/reuse-undo.1 each stands between a line `.\\" made: NAME` and a line `.\\" end`,
where NAME is the heading of its section, `prefixes` or `styles of comments`. An option's text is
that of its row. What a row has no room for stands below the list, written by hand.
usage: docs/manual_options.py            writes the lists into the page
       docs/manual_options.py --check    compares them, with status 1 if one differs
"""
import re
import sys
from pathlib import Path

TOP = Path(__file__).resolve().parent.parent
REFERENCE = TOP / "docs/REFERENCE.md"
PAGE = TOP / "share/man/man1/reuse-undo.1"
# What is printed as an argument wherever it stands
ARGUMENTS = "DIR EXPR FILE GLOB HOLDER ID NAME NEW NUMBER OLD PATH TEXT YEAR".split()
MADE = re.compile(r'^\.\\" made: ([^\n]*)\n(.*?)^\.\\" end\n', re.DOTALL | re.MULTILINE)


def tables(text):
    """The rows of the tables of options below each heading, and of the table of prefixes."""
    found, heading = {}, None
    for line in text.splitlines():
        if line.startswith("## "):
            heading = line[3:]
        cells = [cell.strip() for cell in re.split(r"(?<!\\)\|", line)[1:-1]]
        if len(cells) != 2:
            continue
        if cells[0].startswith(("`-", "`--")):
            found.setdefault(heading, []).append(cells)
        elif cells[1].startswith("`") and heading == "annotate":
            found.setdefault("prefixes", []).append(cells)
    return found


def item(cell):
    """The head of an option: `-c`, `--copyright TEXT` as `.It Fl c , Fl -copyright Ar TEXT`."""
    options = []
    for option in re.findall(r"`-([^`]*)`", cell):
        name, *values = option.split(" ")
        options.append(" ".join(["Fl", name] + (["Ar"] + values if values else [])))
    return ".It " + " , ".join(options)


def macro(code):
    """The macro of a text between code marks."""
    if code.startswith("-"):
        name, *values = code[1:].split(" ")
        return " ".join(["Fl", name] + (["Ar"] + values if values else []))
    path = re.fullmatch(r"([A-Z]+)(\.[a-z]+)", code)
    if path:
        return f"Ar {path[1]} Ns Pa {path[2]}"
    if code in ARGUMENTS:
        return f"Ar {code}"
    if "/" in code or code == "REUSE.toml":
        return f"Pa {code}"
    return f"Ql {code}"


def prose(cell):
    """The lines of a row's text."""
    text = re.sub(r"\[([^\]]*)\]\([^)]*\)", r"\1", cell)
    text = text[0].upper() + text[1:] + "."
    lines, run = [], ""
    token = rf"`([^`]*)`|\b({'|'.join(ARGUMENTS)})(s?)\b"
    place = 0
    for found in re.finditer(token, text):
        run += text[place:found.start()]
        place = found.end()
        lines += broken(run)
        made = macro(found[1]) if found[1] is not None else f"Ar {found[2]}"
        made += " Ns s" if found[3] else ""
        marks = re.match(r"[.,;:)]*", text[place:])
        place += marks.end()
        run = ""
        lines.append("." + " ".join([made] + list(marks[0])))
    return lines + broken(run + text[place:])


def broken(run):
    """Text in lines of at most 80 columns."""
    lines, line = [], ""
    for word in run.split():
        if line and len(line) + 1 + len(word) > 80:
            lines.append(line)
            line = word
        else:
            line = f"{line} {word}".strip()
    return lines + ([line] if line else [])


def made(name, found, text):
    """The lines that are made for a name."""
    if name == "styles of comments":
        named = re.search(r"^\*\*Styles\*\*: (.*?)\. The", text, re.DOTALL | re.MULTILINE)
        styles = re.findall(r"`([a-z]+)`", named[1])
        last = [f".Cm {styles[-2]}", "and", f".Cm {styles[-1]} ."]
        return [f".Cm {style} ," for style in styles[:-2]] + last
    rows = found[name]
    if name == "prefixes":
        width = max((re.findall("`([^`]*)`", row[1])[0] for row in rows), key=len)
        lines = ['.Bl -column -compact "spdx-string-symbol" "' + width + '"']
        for names, begins in rows:
            prefix = re.match("`([^`]*)`", names)[1]
            default = " Pq the default" if "default" in names else ""
            begins = begins.strip("`").replace("©", "\\(co")
            lines.append(f'.It Cm {prefix} Ta "{begins}"{default}')
        return lines + [".El"]
    lines = [".Bl -tag -width Ds"]
    for options, does in rows:
        lines += [item(options)] + prose(does)
    return lines + [".El"]


def main():
    text = REFERENCE.read_text(encoding="utf-8")
    page = PAGE.read_text(encoding="utf-8")
    found = tables(text)
    names = [match[1] for match in MADE.finditer(page)]
    left = sorted(set(found) - set(names))
    if left:
        sys.exit(f"the manual page has no place for the options of {', '.join(left)}")

    def anew(match):
        lines = made(match[1], found, text)
        return f'.\\" made: {match[1]}\n' + "\n".join(lines) + '\n.\\" end\n'

    new = MADE.sub(anew, page)
    if sys.argv[1:] == ["--check"]:
        old = MADE.findall(page)
        differ = [name for (name, a), (_, b) in zip(old, MADE.findall(new)) if a != b]
        if differ:
            sys.exit(f"docs/manual_options.py makes other lists: {', '.join(differ)}")
        print(f"{len(names)} lists, {sum(len(rows) for rows in found.values())} rows")
    elif sys.argv[1:]:
        sys.exit("usage: docs/manual_options.py [--check]")
    else:
        PAGE.write_text(new, encoding="utf-8")


main()
