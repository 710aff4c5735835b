"""Each ready name and each ready comment, as the program prints them (tests/ready_styles.sh).

usage: ready.py PROGRAM ROOM
"""
# The tags below are data: REUSE-IgnoreStart
import os
import shutil
import subprocess
import sys
import tomllib

import headers
import marks

PROGRAM, ROOM = sys.argv[1], sys.argv[2]
TREE = os.path.join(ROOM, "tree")


def fail(what):
    print(f"fault: {what}", file=sys.stderr)
    sys.exit(1)


def call(*words):
    """What a call prints; it must be accepted."""
    done = subprocess.run([PROGRAM, "--root", TREE, "--no-sync", *words], capture_output=True)
    if done.returncode:
        fail(f"{words}: {done.stderr.decode()[:500]}")
    return done.stdout.decode()


# ---- the ready tables

def style_of_program(name):
    """The comments of one of the ten styles."""
    told = headers.tags.STYLES[name]
    keys = {}
    if told.line:
        keys["line"], keys["line-lead"] = (text.decode() for text in told.line)
    if told.block:
        opener, middle, last, lead = (text.decode() for text in told.block)
        keys.update({"open": opener, "close": last.strip(), "last": last, "lead": lead})
        if middle:
            keys["middle"] = middle
    return marks.Style(keys)


def tables():
    """The ready names with their styles, and the ready comments."""
    names, comments = call("styles", "--all"), call("styles", "--all", "--comments")
    os.makedirs(os.path.join(TREE, ".reuse"))
    for file, text in ("styles.toml", names), ("comments.toml", comments):
        with open(os.path.join(TREE, ".reuse", file), "w") as out:
            out.write(text)
    own = {name: marks.Style(keys) for name, keys in tomllib.loads(comments)["comments"].items()}
    for name, style in own.items():
        if marks.fault_of(style):
            fail(f"the marks of {name}: {marks.fault_of(style)}")
    named = tomllib.loads(names)["styles"]
    if set(own) - set(named.values()):
        fail(f"no name has these comments: {set(own) - set(named.values())}")
    program = {name: style_of_program(name) for name in headers.tags.STYLES}
    known = {**program, **own, "uncommentable": None}
    return {name: known[style] for name, style in named.items()}, own


def fronts(style):
    """Lines in front of a file: those that have to stay there, one by one and together."""
    yield []
    yield ["#!/usr/bin/tool"]
    firsts = [first + "x" for first in style.first_lines]
    yield from ([first] for first in firsts)
    matter = [style.front_matter[0], "title: x", "", style.front_matter[1]] if style.front_matter else []
    if firsts or matter:
        yield firsts + matter
        yield ["#!/usr/bin/tool"] + firsts + matter
    if matter:
        yield matter
        yield matter[:2]


def texts(style):
    """The texts of a name's files."""
    for lines in fronts(style):
        for end in "\n", "\r\n":
            yield end.join([*lines, "x", ""]).encode()
    yield b""
    yield b"x"
    yield "\ufeffx\n".encode()


def make_files(named):
    """A folder for each text of each name: the paths, each with its marks."""
    files = {}
    for number, (name, style) in enumerate(sorted(named.items())):
        for count, text in enumerate(texts(style) if style else [b"x\n"]):
            base = "x" + name if name.startswith(".") else name
            path = f"n{number}/t{count}/{base}"
            files[path] = headers.Marks(style) if style else None
            os.makedirs(os.path.dirname(os.path.join(TREE, path)))
            with open(os.path.join(TREE, path), "wb") as out:
                out.write(text)
    return files


def state():
    """All files of the tree with their bytes, but for the journal."""
    found = {}
    for folder, folders, names in os.walk(TREE):
        if ".reuse" in folders:
            folders.remove(".reuse")
        for name in names:
            path = os.path.join(folder, name)
            with open(path, "rb") as text:
                found[os.path.relpath(path, TREE)] = text.read()
    return found


# ---- calls

def neighbour(old, additions):
    """The neighbour of a file that can't hold a comment."""
    said = headers.tags.Info(old.splitlines(), b"") if additions.replaces else None
    info = headers.joined(said, additions)
    new = headers.tags.block_text(info, None, headers.tags.Style(), b"\n")
    return new if additions.replaces else new + b"\n" + old


def expected(files, before, additions):
    made = dict(before)
    for path, style in files.items():
        if style:
            made[path] = headers.annotated(before[path], style, additions)
        else:
            made[path + ".license"] = neighbour(before.get(path + ".license", b""), additions)
    return made


def annotate(files, holder, year, form=None, replaces=True, merges=False, paths=(".",)):
    """One call on all files, compared with what is expected; the same again changes nothing."""
    notice = f"SPDX-FileCopyrightText: {year} {holder}".encode()
    additions = headers.Additions([notice], [], [b"MIT"], form, replaces, merges)
    words = ["annotate", "-c", holder, "-y", str(year), "-l", "MIT"]
    words += {None: [], "single": ["--single-line"], "multi": ["--multi-line"]}[form]
    words += ([] if replaces else ["--no-replace"]) + (["--merge-copyrights"] if merges else [])
    before = state()
    wanted = expected(files, before, additions)
    changed = call(*words, "-r", *paths).splitlines()
    after = state()
    for path in sorted(set(wanted) | set(after)):
        if wanted.get(path) != after.get(path):
            fail(f"{path}, {words}: of {before.get(path)} it makes {after.get(path)}, and not "
                 f"{wanted.get(path)}")
    differ = sorted(path for path in after if after[path] != before.get(path))
    if sorted(changed) != [f"changed {path}" for path in differ]:
        fail(f"{words} prints {changed[:3]}, and changes {differ[:3]}")
    if replaces and call(*words, "-r", *paths) != "nothing changed\n":
        fail(f"{words} again changes something")
    return after


def headers_say(files, after, notices):
    """Each header, and each neighbour, has just these notices."""
    for path, style in files.items():
        if style:
            said = headers.header_of(after[path], style).info.notices
        else:
            said = headers.tags.Info(after[path + ".license"].splitlines(), b"").notices
        if said != {b"SPDX-FileCopyrightText: " + notice for notice in notices}:
            fail(f"{path} has the notices {said}")


def work_on(files, form=None):
    """Annotates, again with another holder, merges, puts a header above, and takes all back."""
    first = state()
    paths = ["."] if form is None else sorted(files)
    annotate(files, "Jane Doe", 2019, form, paths=paths)
    after = annotate(files, "Joe Bloggs", 2020, paths=paths)
    headers_say(files, after, [b"2019 Jane Doe", b"2020 Joe Bloggs"])
    after = annotate(files, "Jane Doe", 2024, merges=True, paths=paths)
    headers_say(files, after, [b"2019 - 2024 Jane Doe", b"2020 Joe Bloggs"])
    after = annotate(files, "Mary Major", 2021, replaces=False, paths=paths)
    headers_say({path: style for path, style in files.items() if style}, after, [b"2021 Mary Major"])
    for _ in range(4):
        call("undo")
    if state() != first:
        fail("undo doesn't give all bytes back")


def main():
    shutil.rmtree(TREE, ignore_errors=True)
    os.makedirs(TREE)
    named, own = tables()
    files = make_files(named)
    work_on(files)
    both = {path: style for path, style in files.items()
            if style and style.marker is not None and style.opener is not None}
    work_on(both, "multi")
    print(f"{len(named)} ready names and {len(own)} ready comments: {len(files)} files are annotated, "
          f"merged, given a second header and taken back, {len(both)} of them in both forms")


main()
