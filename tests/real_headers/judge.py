#!/usr/bin/env python3
"""What the files of a tree say, as reuse spdx reads them, and whether an amendment changed just
what it was asked for. Ends with status 1 and a reason if it didn't. Tasks: licence, holder, years and
removed; each but years also with -everywhere.
usage: judge.py read TREE > BEFORE
       judge.py compare BEFORE TREE LINES TASK OLD NEW REFUSED
The tags below are data: REUSE-IgnoreStart"""
import json
import os
import re
import shutil
import subprocess
import sys

TAG = re.compile(r"SPDX-License-Identifier:[ \t]+(.*)")
NOTICE = re.compile(r"(?:SPDX-FileCopyrightText:|Copyright|©)[ \t(0-9].*")
END = re.compile(r"[ \t\"']*(?:\*/|-->|\*\)|\*\|)?[ \t\"']*$")
WORDS = {"AND", "OR", "WITH"}
# What may stand in a notice in front of its holder: a prefix, signs, years and what joins them
FRONT = r"(?:SPDX-FileCopyrightText|Copyright|©|\([cC]\)|present|now|today|and\b|by\b|[^A-Za-z])+"
PLACE = r"(\d{4}) - %s"
SPAN = r"(?:\s*(?:-|–)\s*\d{4})?"


def by_reuse(tree):
    """The licences and the notices of each file, as reuse reads them."""
    told = subprocess.run(["reuse", "--root", tree, "spdx"], capture_output=True, check=True)
    readings, path = {}, None
    for part in re.split(r"\n(?=FileName: )", told.stdout.decode())[1:]:
        path = re.match(r"FileName: \./(.*)", part)[1]
        licences = re.findall(r"^LicenseInfoInFile: (.*)$", part, re.M)
        notices = re.search(r"^FileCopyrightText: <text>(.*?)</text>", part, re.M | re.S)
        readings[path] = (sorted(licences), sorted(notices[1].split("\n")) if notices else [])
    return readings


def plainly(tree):
    """The same, by two patterns."""
    readings = {}
    for folder, folders, names in os.walk(tree):
        folders[:] = [name for name in folders if name != ".reuse"]
        for name in names:
            path = os.path.join(folder, name)
            with open(path, encoding="utf-8", errors="replace") as file:
                lines = file.read().split("\n")
            licences, notices = set(), set()
            for line in lines:
                for found in TAG.findall(line):
                    licences.update(set(re.findall(r"[\w.+-]+", END.sub("", found))) - WORDS)
                notices.update(END.sub("", found) for found in NOTICE.findall(line))
            readings[os.path.relpath(path, tree)] = (sorted(licences), sorted(notices))
    return readings


def read(tree):
    return by_reuse(tree) if shutil.which("reuse") else plainly(tree)


def fail(reason):
    sys.exit(print(reason) or 1)


def dated_before(text, year):
    """The texts that may have become one with years up to a year."""
    return [
        re.compile(re.escape(text[: found.end(1)]) + SPAN + re.escape(text[found.end():]))
        for found in re.finditer(PLACE % year, text)
    ]


def has_holder(notice, holder):
    """Whether a notice is of a holder, behind which years may stand."""
    years = r"(?:\s*,[\s\d,&–-]*(?:present|now|today)?)?"
    return re.fullmatch(FRONT + " " + re.escape(holder) + years, notice)


def may_become(task, old, new, before, after):
    """Whether a value may become another one: none stands for one that goes."""
    if task == "years":
        return after is not None and any(p.fullmatch(before) for p in dated_before(after, new))
    if task == "removed":
        return after is None and has_holder(before, old)
    if task == "holder":
        return after == before.replace(old, new)
    return before == old and after == new


def stands_behind_marks(tree, path, notice):
    """Whether a notice stands behind marks alone, where amend reads it."""
    with open(os.path.join(tree, path), encoding="utf-8", errors="replace") as file:
        for line in file:
            if notice in line and re.match(r"[\x00-/:-@\[-`{-\x7f]*" + re.escape(notice), line):
                return True
    return False


def compare(before, tree, lines, task, old, new, refused):
    everywhere, task = task.endswith("-everywhere"), task.split("-")[0]
    with open(before) as file:
        before = json.load(file)
    after = {path: list(reading) for path, reading in read(tree).items()}
    changed, left = set(), set()
    for line in open(lines):
        word, path = line.rstrip("\n").split(" ", 1)
        {"changed": changed, "left": left}.get(word, set()).add(path)
    part = 0 if task == "licence" else 1
    if set(before) != set(after):
        fail("other files")
    differing = still = 0
    for path in sorted(before):
        was, now = before[path], after[path]
        differing += was != now
        if was != now and path not in changed:
            fail(f"{path} differs, and isn't changed")
        if was[1 - part] != now[1 - part]:
            fail(f"{path} differs in the other part")
        for value in set(now[part]) - set(was[part]):
            if not any(may_become(task, old, new, other, value) for other in was[part]):
                fail(f"{path} has got {value!r}")
        for value in set(was[part]) - set(now[part]):
            others = now[part] + [None]
            if not any(may_become(task, old, new, value, other) for other in others):
                fail(f"{path} has lost {value!r}")
        if task == "licence" and old in now[part] or part and old and any(
            has_holder(value, old) and stands_behind_marks(tree, path, value)
            for value in now[part]
        ):
            still += 1
            if everywhere and path not in left:
                fail(f"{path} still has {old}")
            if path not in left and not int(refused):
                fail(f"{path} still has {old}, and isn't left")
    if not changed:
        fail("nothing is changed")
    print(f"{len(changed)} changed, {differing} read otherwise, {len(left)} left,"
          f" {still} still have the old value, {refused} refused")


if sys.argv[1] == "read":
    json.dump(read(sys.argv[2]), sys.stdout)
else:
    compare(*sys.argv[2:])
