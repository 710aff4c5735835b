"""Random comment styles of a tree beside random texts (tests/random_styles.sh).

usage: rounds.py PROGRAM ROOM ROUNDS SEED

A round is one tree of 250 files with a good style each, and 13 bad styles.
"""
# The tags below are data: REUSE-IgnoreStart
import collections
import os
import random
import shutil
import subprocess
import sys

import headers
import marks
import texts

PROGRAM, ROOM, ROUNDS, SEED = sys.argv[1], sys.argv[2], int(sys.argv[3]), int(sys.argv[4])
STYLES, BAD = 250, 13
TREE = os.path.join(ROOM, "tree")
HOLDERS = ["Jane Doe", "Joe Bloggs", "J. {#} D.", "A --> B", "(C) */ Corp", "Élan #", "2019", "x y"]
LICENCES = ["MIT", "ISC", "GPL-2.0-or-later OR MIT", "0BSD"]
STATED = collections.Counter()


class Fault(Exception):
    pass


def check(holds, what):
    if not holds:
        raise Fault(what)


# ---- trees

class File:
    """A file of the tree: its path, its style, its name's line of `styles.toml` or its rule."""

    def __init__(self, chance, number, has_rules):
        self.style = marks.good_style(chance)
        self.marks = headers.Marks(self.style)
        letters = "".join(chance.choice("abcxyz09-") for _ in range(chance.randint(0, 30)))
        self.name = f"{letters}-{number}"
        self.rule, self.own, first = "", "", None
        kind = chance.random() if has_rules else 0
        if kind < 0.5:
            self.path = f"f{number}.s{number}"
            self.own = f'".s{number}" = "{self.name}"\n'
        elif kind < 0.75:
            self.path = f"f{number}.r{number}.any"
            self.rule = f'[[rules]]\nname = "*.R{number}.*"\nstyle = "{self.name}"\n'
        else:
            self.path = f"f{number}"
            first = f"#!/bin/tool{number} -x"
            self.rule = f'[[rules]]\nfirst-line = "#!*/tool{number} *"\nstyle = "{self.name}"\n'
        self.text = texts.text_of(chance, self.style, first)

    def table(self, chance):
        return marks.table_of(chance, self.name, self.style.keys)


def write(path, text):
    os.makedirs(os.path.dirname(path), exist_ok=True)
    with open(path, "wb") as out:
        out.write(text)


def make_tree(chance, files):
    shutil.rmtree(TREE, ignore_errors=True)
    for file in files:
        write(os.path.join(TREE, file.path), file.text)
    own = "".join(file.own for file in files)
    write_comments("version = 1\n" + "".join(file.table(chance) for file in files)
                   + "".join(file.rule for file in files))
    write(os.path.join(TREE, ".reuse/styles.toml"), f"version = 1\n[styles]\n{own}".encode())


def write_comments(text):
    write(os.path.join(TREE, ".reuse/comments.toml"), text.encode())


def texts_in_tree(files):
    found = {}
    for file in files:
        with open(os.path.join(TREE, file.path), "rb") as text:
            found[file.path] = text.read()
    return found


def call(*words, listed=None):
    """Runs the program: its status, its lines, and those of its errors."""
    STATED["calls"] += 1
    given = "" if listed is None else "".join(path + "\n" for path in listed)
    done = subprocess.run([PROGRAM, "--root", TREE, "--no-sync", *words], input=given.encode(),
                          capture_output=True, timeout=600)
    return done.returncode, done.stdout.decode().splitlines(), done.stderr.decode().splitlines()


# ---- annotate

def expected(files, state, additions):
    """What a call makes of each file, or the refusal's text."""
    made = {}
    for file in files:
        try:
            made[file.path] = headers.annotated(state[file.path], file.marks, additions)
        except headers.Refused as refusal:
            made[file.path] = str(refusal)
    return made


def dry_run(words, state, made):
    """A dry run says of each file what is expected."""
    _, lines, errors = call("annotate", *words, "-r", "-n", ".")
    accepted = [path for path in sorted(made) if isinstance(made[path], bytes)]
    wanted = [("unchanged " if made[path] == state[path] else "would change ") + path
              for path in accepted]
    check(lines == wanted, f"a dry run of {words} prints {set(lines) ^ set(wanted)}")
    refused = [f"reuse-undo: {path}: {made[path]}" for path in sorted(made) if path not in accepted]
    check(errors == refused, f"a dry run of {words} tells {set(errors) ^ set(refused)}")
    for path in made:
        STATED[made[path] if path not in accepted else "accepted"] += 1
    return accepted


def keeps(file, old, new, additions):
    """All outside of the header is as before, and the header says what it said and what was added."""
    before, after = headers.header_of(old, file.marks), headers.header_of(new, file.marks)
    check(after, f"{file.path} has no header: {new}")
    before = before if additions.replaces else None
    start, _, _ = headers.place_of(old, file.marks)
    start, end = (before.start, before.end) if before else (start, start)
    check(new[:start] == old[:start] and new.endswith(old[end:]), f"{file.path}: other bytes")
    between = new[start:len(new) - len(old) + end]
    outer = between.replace(new[after.start:after.end], b"", 1)
    check(not outer.strip(b"\r\n"), f"{file.path}: more than a header: {between}")
    check(additions.licences <= after.info.licences, f"{file.path} lacks a licence")
    check(additions.contributors <= after.info.contributors, f"{file.path} lacks a contributor")
    check(additions.merges or additions.notices <= after.info.notices, f"{file.path} lacks a notice")
    if before:
        check(before.info.free == after.info.free, f"{file.path}: other lines of the header")
        olds = list(zip(before.info.said(), after.info.said()))[additions.merges:]
        check(all(one <= other for one, other in olds), f"{file.path} loses what it said")


def annotate(files, words, additions):
    """One call, compared with what is expected, then the same again. Whether a file changed."""
    state = texts_in_tree(files)
    made = expected(files, state, additions)
    accepted = dry_run(words, state, made)
    status, lines, errors = call("annotate", *words, "-r", "--files-from", "-", ".", listed=accepted)
    changed = [f"changed {path}" for path in accepted if made[path] != state[path]]
    check(status == 0, f"annotate {words}: {errors[:3]}")
    check(lines == (changed or ["nothing changed"]), f"annotate {words}: {lines[:3]}")
    after = texts_in_tree(files)
    for file in files:
        wanted = made[file.path] if file.path in accepted else state[file.path]
        check(after[file.path] == wanted, f"{file.path}, {file.style.keys}, {words}: of "
              f"{state[file.path]} it makes {after[file.path]}, and not {wanted}")
        if file.path in accepted:
            keeps(file, state[file.path], after[file.path], additions)
    if additions.replaces:
        same_again(words, accepted, state)
    return bool(changed)


def same_again(words, accepted, before):
    """The same call again, but for files of one line that ends in CR and not in LF: where it stays
    in front, the first call makes CR LF of it."""
    settled = [path for path in accepted if b"\n" in before[path] or not before[path].endswith(b"\r")]
    status, lines, errors = call("annotate", *words, "-r", "--files-from", "-", ".", listed=settled)
    check(status == 0 and lines == ["nothing changed"], f"{words} again: {lines[:3]}, {errors[:3]}")


def existing(files, state):
    """Which files have a header, as `--skip-existing` says."""
    _, lines, errors = call("annotate", "-l", "MIT", "--skip-existing", "-r", "-n", ".")
    skipped = {line[len("skipped "):] for line in lines if line.startswith("skipped ")}
    found = {file.path for file in files if headers.header_of(state[file.path], file.marks)}
    check(skipped == found, f"files with a header: {skipped ^ found}")
    STATED["headers before"] += len(found)


def additions_of(chance, holder, form=None, replaces=True, merges=False):
    """The words of a call, and what it adds."""
    licence, prefix = chance.choice(LICENCES), chance.choice(["spdx", "spdx", *headers.tags.PREFIXES])
    contributors = ["Mary Major"] if chance.random() < 0.5 else []
    years = chance.choice([("2024",), ("2024",), ("2018", "2022")])
    words = ["-c", holder, "-l", licence, "--copyright-prefix", prefix]
    for option, texts_given in ("-y", years), ("--contributor", contributors):
        words += [word for text in texts_given for word in (option, text)]
    words += {None: [], "single": ["--single-line"], "multi": ["--multi-line"]}[form]
    words += ([] if replaces else ["--no-replace"]) + (["--merge-copyrights"] if merges else [])
    notice = f"{headers.tags.PREFIXES[prefix]} {' - '.join(years)} {holder}"
    coded = [[text.encode() for text in part] for part in ([notice], contributors, [licence])]
    return words, headers.Additions(*coded, form, replaces, merges)


def good_round(chance, has_rules):
    files = [File(chance, number, has_rules) for number in range(STYLES)]
    make_tree(chance, files)
    first = texts_in_tree(files)
    existing(files, first)
    one, other, third = chance.sample(HOLDERS, 3)
    depth = 0
    for holder, form, replaces, merges in [
        (one, chance.choice([None, None, "single", "multi"]), True, False),
        (other, None, True, False),
        (chance.choice([one, other]), None, True, True),
        (third, chance.choice([None, "single", "multi"]), False, False),
    ]:
        depth += annotate(files, *additions_of(chance, holder, form, replaces, merges))
    for _ in range(depth):
        status, _, errors = call("undo")
        check(status == 0, f"undo: {errors}")
    last = texts_in_tree(files)
    for file in files:
        check(last[file.path] == first[file.path], f"{file.path}: undo gives other bytes back")
    STATED["styles"] += len(files)
    return files


# ---- bad styles

def bad_one(chance):
    """A style's name and keys, and what is told of it: bad marks, a bad name or a bad shape."""
    if chance.random() < 0.15:
        return marks.other_fault(chance)
    keys, fault = marks.bad_style(chance)
    return "a-bad-one", keys, f"bad marks of a-bad-one: {marks.REASONS[fault]}"


def bad_round(chance, files):
    """Each bad style is refused by itself, and the first one among all good ones."""
    tables = [file.table(chance) for file in files]
    before = texts_in_tree(files)
    for number in range(BAD):
        name, keys, told = bad_one(chance)
        table = marks.table_of(chance, name, keys)
        wanted = f"reuse-undo: note: what is wrong with .reuse/comments.toml: {told}"
        all_tables = [table] if number else chance.sample([*tables, table], len(tables) + 1)
        write_comments("version = 1\n" + "".join(all_tables))
        status, lines, errors = call("-v", "annotate", "-l", "MIT", "-r", ".")
        check(status == 1 and not lines, f"{name}, {keys} is taken, and not refused as {told}")
        check(errors[:1] == ["reuse-undo: .reuse/comments.toml: bad comments"] and wanted in errors,
              f"{name}, {keys}: {errors} in place of {wanted}")
        STATED["bad styles"] += 1
        STATED["told " + told.split(":")[-1][:30]] += 1
    check(texts_in_tree(files) == before, "a refused call changes a file")


def knows_rules():
    """Whether this program knows rules in a file of comments."""
    shutil.rmtree(TREE, ignore_errors=True)
    write(os.path.join(TREE, "a.py"), b"x\n")
    write_comments('version = 1\n[[rules]]\nname = "*.x"\nstyle = "c"\n')
    return call("annotate", "-l", "MIT", "-n", "a.py")[0] == 0


def main():
    has_rules = knows_rules()
    for number in range(ROUNDS):
        seed = SEED + number
        chance = random.Random(seed)
        try:
            bad_round(chance, good_round(chance, has_rules))
        except Fault as fault:
            print(f"fault in round {seed}: {fault}", file=sys.stderr)
            sys.exit(1)
    reasons = {"bad name" if "bad name" in key else key for key in STATED if key.startswith("told ")}
    print(f"{STATED['styles']} styles, {'named by rules, too' if has_rules else 'by names alone'}: "
          f"{STATED['headers before']} of their files had headers; {STATED['accepted']} headers "
          f"written, {STATED['holds the closer']} refused for a closer, "
          f"{STATED['block would not be found again']} not found again; {STATED['bad styles']} bad "
          f"styles refused by {len(reasons)} reasons; {STATED['calls']} calls")


main()
