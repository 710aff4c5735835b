"""Compares texts and headers of annotate and amend with their rules told once more
(header_texts.py), on random trees. Arguments: the program, a folder to work in, how many trees, and
the seed of the first. The tags below are data: REUSE-IgnoreStart"""
import collections
import random
import re
import sys
import types

import annotating
import header_texts
import outcomes
import random_trees
import retelling
import runs

TEXTS = ["A tool.", "Permission is hereby\ngranted to anyone,\n\nwithout limits.", "one\ntwo",
         "A tool. A tool.", "  Part of   the\n\tACME tools", "* one\n* two", "- a rule -", "###",
         "**", "Ünsal's  words", "1. Copyright 2020 Jo", "SPDX-License-Identifier:", "x /\n/ y",
         "a\n\n\n  b */\n", "closes --> here", "(* a *) b", "--\n\nA tool.\n*", "*/ A\ntool."]
FAULTS = [b"a \x1b", b"a\rb", b"a \r\r", b"\x7f", b"a\xff", b"\0",
          b"; SPDX-License-Identifier: MIT", b" \xc2\xa9 2019 ACME", b"-- Copyright 2019 ACME",
          b"SPDX-FileContributor:Jo", b"x SPDX-SnippetBegin", b"REUSE-IgnoreStart", b"a" * 65537]
EMPTY = [b"", b"\n", b" \t\r\n\r\n \r", retelling.MARK, b" "]
BLANK = ["", "", " ", "*", "#", "--", "//", ";;"]
IN_FRONT = ["* ", "# ", "// ", "- ", ";", "(* ", " % ", '"', "> "]
PLACES = {"--force-dot-license": "force", "--fallback-dot-license": "fallback",
          "--skip-unrecognised": "skip_unrecognised", "--skip-existing": "skip_existing"}


# ---- trees

def broken(chance, text):
    """The words of a text in other lines, perhaps with blank ones or a tag in between."""
    lines = [""]
    for word in text.split():
        if lines[-1] and chance.random() < 0.3:
            between = chance.random()
            if between < 0.2:
                lines.append(chance.choice(BLANK))
            elif between < 0.3:
                lines.append(random_trees.tag(chance))
            lines.append("")
        lines[-1] += (chance.choice([" ", " ", "  ", "\t"]) if lines[-1] else "") + word
    return lines


def like(chance, text):
    """Contents like a text, which hold it or not."""
    kind, lines = chance.random(), text.split("\n")
    if kind < 0.3:
        return lines
    if kind < 0.6:
        return broken(chance, text)
    place = chance.randrange(len(lines))
    if kind < 0.7:
        lines[place] = chance.choice(IN_FRONT) + lines[place]
    elif kind < 0.8:
        lines[place] = chance.choice(["See {}", "{} and more", "{}."]).format(lines[place])
    elif kind < 0.9:
        lines[place] = lines[place].upper()
    else:
        lines[place:place] = [random_trees.tag(chance)]
    return lines


def contents(chance, texts):
    """Contents of a comment: tags, free lines, blank ones, and texts or what is like one."""
    found, share = [], chance.choice([0.5, 1, 1, 0])
    for _ in range(chance.randint(1, 5)):
        kind = chance.random()
        if kind < 0.4:
            found.append(random_trees.tag(chance))
        elif kind < 0.6:
            found.append(chance.choice(BLANK))
        elif chance.random() < share:
            found += like(chance, chance.choice(texts))
        elif share:
            found.append(chance.choice(random_trees.FREE))
    return [text + chance.choice(["", "", "", " ", "\t"]) for text in found or [""]]


def tree_of(chance, texts):
    """A tree in which many a header holds one of the texts, and its own styles."""
    tree, own = random_trees.tree_of(chance, lambda chance: contents(chance, texts))
    for path in filter(retelling.is_covered, list(tree)):
        if chance.random() < 0.1:
            text = chance.choice(texts).encode()
            tagged = b"SPDX-License-Identifier: MIT\n\n" + text
            tree[path + ".license"] = chance.choice(
                [b"", retelling.MARK, text, retelling.MARK + text, text + b"\n\nA tool.",
                 tagged + b"\nSPDX-SnippetBegin\n"])
    return tree, own


# ---- calls

def text_file(chance, texts):
    """A file of a text, seldom of a bad one."""
    end = chance.choice(["\n", "\n", "\r\n"])
    text = chance.choice(texts)
    kind = chance.random()
    if kind < 0.03:
        return chance.choice(EMPTY)
    lines = text.split("\n") if kind < 0.6 else ["", *text.split(" "), "\t", ""]
    file = end.join(line + chance.choice(["", "", " ", "\t "]) for line in lines).encode()
    if kind > 0.93:
        faults = chance.sample(FAULTS, chance.choice([1, 1, 2]))
        return b"\n".join([file] * chance.choice([0, 1]) + faults)
    mark = retelling.MARK if chance.random() < 0.1 else b""
    return mark + file + chance.choice([b"", end.encode()])


def additions_of(chance):
    """The options of an annotate that say what it adds, and that."""
    words, notices, contributors, licences = [], [], [], []
    prefix = chance.choice(["spdx", "spdx", *retelling.PREFIXES])
    years = chance.choice([[], ["2024"], ["2019", "2023"]])
    kinds = ["licence", "licence", "holder", "contributor"]
    for kind in chance.sample(kinds, chance.choice([1, 2])):
        if kind == "licence":
            words += ["-l", chance.choice(random_trees.NEW_LICENCES)]
            licences.append(words[-1].strip(" ").encode())
        elif kind == "contributor":
            words += ["--contributor", chance.choice(random_trees.CONTRIBUTORS)]
            contributors.append(words[-1].encode())
        else:
            holder = chance.choice(random_trees.NEW_HOLDERS)
            words += [f"--copyright={holder}", "--copyright-prefix", prefix]
            words += [word for year in years for word in ("-y", year)] or ["--exclude-year"]
            span = " - ".join(years) + " " if years else ""
            notices.append(f"{retelling.PREFIXES[prefix]} {span}{holder.strip(' ')}".encode())
    return words, (notices, contributors, licences)


def style_of(chance):
    """A style that is asked for, or None, and its words."""
    style = chance.choice(sorted(retelling.STYLES)) if chance.random() < 0.1 else None
    return style, ["--style", style] if style else []


def annotate_of(chance, own):
    """The words of an annotate, and a function of a tree and texts that answers what it does."""
    words, parts = additions_of(chance)
    form = chance.choice([None] * 6 + ["line", "block"])
    replaces, merges = chance.random() < 0.85, chance.random() < 0.3
    words += {None: [], "line": ["--single-line"], "block": ["--multi-line"]}[form]
    words += ([] if replaces else ["--no-replace"]) + (["--merge-copyrights"] if merges else [])
    style, asked = style_of(chance)
    places = chance.choice([[], ["--fallback-dot-license"], ["--skip-unrecognised"]])
    places = chance.choice([places] * 9 + [["--force-dot-license"]])
    places = places + (["--skip-existing"] if chance.random() < 0.05 else [])
    options = {PLACES[place] for place in places}
    additions = annotating.Additions(*parts, form, replaces, merges)
    return ["annotate", *words, *asked, *places], lambda tree, texts: header_texts.Annotation(
        tree, additions, texts, style, own, options)


def amend_of(chance, own):
    """The same of an amend."""
    kind, words = chance.random(), []
    if kind < 0.3:
        words = random_trees.options_of(chance, [])
    asked, style = runs.amendments_of(words)
    removes = kind > 0.65
    words += ["--remove-header"] if removes else []
    if not style:
        style, more = style_of(chance)
        words += more
    return ["amend", *words], lambda tree, texts: header_texts.Removal(
        tree, asked, None if removes else texts, style, own)


class Call:
    """A call on a random tree: its words before the paths; the files of its texts, by their names;
    and what it changes of a tree, by texts."""

    def __init__(self, chance, room):
        texts = chance.sample(TEXTS, 2)
        texts.append("\n".join(texts))
        self.tree, own = tree_of(chance, texts)
        annotates = chance.random() < 0.4
        option, of = ("--text", annotate_of) if annotates else ("--remove-text", amend_of)
        self.words, self.change = of(chance, own)
        self.files = {}
        if "--remove-header" not in self.words:
            for number in range(chance.choice([1, 1, 2])):
                name = f"{room}/text{number}"
                self.files[name] = text_file(chance, texts)
                self.words += [option, name]
        for name, text in self.files.items():
            with open(name, "wb") as file:
                file.write(text)

    def texts(self):
        """Its texts, and a refusal of one of them, or None."""
        texts = []
        for name, file in self.files.items():
            try:
                texts.append(header_texts.text_of(file))
            except retelling.Refused as refused:
                return texts, f"bad text: {name}: {refused}"
        return texts, None


# ---- comparison

class Trial:
    """A call, compared with what is expected. `tally` counts what became of files and texts,
    `refusals` the reasons of refusals."""

    def __init__(self, program, room, number, tally, refusals):
        self.program, self.root = program, room + "/tree"
        self.tally, self.refusals = tally, refusals
        self.chance = random.Random(number)
        self.call = Call(self.chance, room)

    def fault(self):
        """The first difference, if there is one. A call that is refused is made once more without
        the paths that are."""
        tree, (texts, refusal) = self.call.tree, self.call.texts()
        if refusal:
            return self.refused(refusal)
        paths = None
        if self.chance.random() < 0.3:
            given = sorted(filter(outcomes.is_gone_through, tree)) or sorted(tree)
            given = sorted(tree) if self.chance.random() < 0.1 else given
            paths = self.chance.sample(given, self.chance.randint(1, len(given)))
        fault, accepted = self.compared(texts, paths)
        return fault or accepted and self.compared(texts, accepted)[0]

    def refused(self, refusal):
        """The same of a call with a bad text, which is refused before a path is looked at."""
        answer = 2, "", f"reuse-undo: {refusal}\n"
        wanted = types.SimpleNamespace(
            tree=self.call.tree, dry_run=answer, check=answer, answer=answer)
        self.refusals[refusal.rsplit(": ", 1)[1]] += 1
        self.tally["refused"] += 1
        return self.answered(wanted, ["-r", "."], None)

    def answered(self, wanted, paths, again):
        words = [*self.call.words, *paths]
        fault = runs.fault_of_call(self.program, self.root, self.call.tree, words, wanted, again)
        return fault and f"{words}: {fault}"

    def compared(self, texts, paths):
        """A difference of a call on paths, or on all, and, if it was refused, the paths that
        weren't."""
        tree = self.call.tree
        change = self.call.change(tree, texts)
        found = list(change.outcomes(paths))
        wanted = runs.Expected(tree, found)
        second = self.call.change(wanted.tree, texts).outcomes(paths)
        again = runs.Expected(wanted.tree, second)
        fault = self.answered(wanted, paths or ["-r", "."], (again.answer, again.tree))
        if fault:
            return fault, []
        if not wanted.answer[0]:
            self.count(change, found)
            return None, []
        reasons = [outcome.rsplit(": ", 1)[1] for _, outcome, _ in found if is_refusal(outcome)]
        self.refusals.update(reasons)
        self.tally["refused"] += 1
        return None, [path for path, outcome, _ in found if not is_refusal(outcome)]

    def count(self, change, found):
        for _, outcome, is_left in found:
            word = "skipped" if outcome == outcomes.SKIPPED else "changed" if outcome else "stayed"
            self.tally[word] += 1
            self.tally["left"] += is_left
        self.tally.update(change.counts)


def is_refusal(outcome):
    return isinstance(outcome, str) and outcome != outcomes.SKIPPED


SUMMARY = """{changed} files changed, {stayed} stayed, {skipped} were skipped and {left} left;
{added} texts added, {held} there already, {taken} taken out; {whole} headers removed whole,
{bare} but for their other lines; {gone} neighbours went; {refused} calls refused"""


def main():
    program, room, count, seed = sys.argv[1], sys.argv[2], int(sys.argv[3]), int(sys.argv[4])
    tally, refusals = collections.Counter(), collections.Counter()
    for number in range(seed, seed + count):
        fault = Trial(program, room, number, tally, refusals).fault()
        if fault:
            sys.exit(f"tree {number}: {fault}")
    if count >= 300 and not all(tally[kind] for kind in re.findall(r"{(\w+)}", SUMMARY)):
        sys.exit(f"chance has no tree of each kind: {tally}")
    reasons = ", ".join(f"{often} {reason}" for reason, often in sorted(refusals.items()))
    print(SUMMARY.replace("\n", " ").format_map(tally), f"({reasons})")


if __name__ == "__main__":
    main()
