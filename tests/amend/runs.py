"""Calls of amend on trees, and what amend is to make of them. The tags below are data:
REUSE-IgnoreStart"""
import os
import shutil
import subprocess

import outcomes
import retelling

ENVIRONMENT = dict(os.environ, LC_ALL="C.UTF-8")
OPTIONS = {
    "--replace-license": ("replaced", "licence"),
    "--remove-license": ("removed", "licence"),
    "--replace-holder": ("replaced", "holder"),
    "--remove-holder": ("removed", "holder"),
    "--replace-contributor": ("replaced", "contributor"),
    "--remove-contributor": ("removed", "contributor"),
    "--until": "until",
    "--copyright-prefix": "prefix",
    "--holder": "holder",
    "--style": "style",
}


def amendments_of(options):
    """What the options of a call say, and its style."""
    asked, style = retelling.Amendments(), None
    asked.everywhere = "--everywhere" in options
    options = [option for option in options if option != "--everywhere"]
    while options:
        option = OPTIONS[options.pop(0)]
        first = options.pop(0).strip(" ")
        if isinstance(option, tuple):
            kind, part = option
            text = first.encode()
            if kind == "replaced":
                text = text, options.pop(0).strip(" ").encode()
            getattr(asked, kind)[part].append(text)
        elif option == "style":
            style = first
        else:
            setattr(asked, option, first if option == "prefix" else first.encode())
    return asked, style


def write_tree(root, tree):
    shutil.rmtree(root, ignore_errors=True)
    os.mkdir(root)
    for path, file in tree.items():
        place = os.path.join(root, path)
        os.makedirs(os.path.dirname(place), exist_ok=True)
        with open(place, "wb") as out:
            out.write(file)


def read_tree(root):
    tree = {}
    for folder, folders, names in os.walk(root):
        if os.path.relpath(folder, root) == ".reuse" and "undo" in folders:
            folders.remove("undo")
        for name in names:
            place = os.path.join(folder, name)
            with open(place, "rb") as file:
                tree[os.path.relpath(place, root)] = file.read()
    return tree


def call(program, root, *words):
    """Status, standard output and standard error."""
    done = subprocess.run(
        [program, "--root", root, "--no-sync", *words],
        stdin=subprocess.DEVNULL,
        capture_output=True,
        env=ENVIRONMENT,
        timeout=60,
        check=False,
    )
    return done.returncode, done.stdout.decode(), done.stderr.decode()


class Expected:
    """What a call is to print, a dry run of it and a check, each with its status; the tree
    afterwards; and the paths that are left. `found` are the outcomes at the tree's paths."""

    def __init__(self, tree, found):
        self.tree, self.left = dict(tree), []
        refusals, lines, changed = [], [], []
        for path, outcome, is_left in found:
            if outcome == outcomes.SKIPPED:
                lines.append(f"skipped {path}\n")
            elif isinstance(outcome, str):
                refusals.append(f"reuse-undo: {outcome}\n")
            elif outcome:
                place, self.tree[outcome[0]] = outcome
                changed.append(place)
                lines.append(f"would change {place}\n")
            else:
                lines.append(f"unchanged {path}\n")
            if is_left:
                self.left.append(path)
        self.tree = {path: file for path, file in self.tree.items() if file is not None}
        changed.sort(key=str.encode)
        printed = "".join(lines) + "".join(f"would leave {path}\n" for path in self.left)
        self.dry_run = int(bool(refusals)), printed, "".join(refusals)
        self.check = int(bool(refusals or changed or self.left)), *self.dry_run[1:]
        self.left_lines = "".join(f"left {path}\n" for path in self.left)
        lines = "".join(f"changed {place}\n" for place in changed) or "nothing changed\n"
        self.answer = 0, lines + self.left_lines, ""
        if refusals:
            self.answer, self.tree, self.left = (1, "", refusals[0]), tree, []


def is_settled(asked):
    """Whether a second call changes nothing: no new text brings an old one, and each notice that
    was written is read with what it was to say."""
    for part in "holder", "contributor":
        old = {pair[0] for pair in asked.replaced[part]}
        if any(pair[1] in old for pair in asked.replaced[part]):
            return False
    old = {pair[0] for pair in asked.replaced["licence"]}
    new = [piece for pair in asked.replaced["licence"] for piece in retelling.pieces_of(pair[1])]
    return asked.reads_back and all(map(retelling.is_name, old)) and not old.intersection(new)


def fault_of(program, root, tree, options, own={}):
    """Compares a call of amend on the tree, and the same call again. Names the first difference
    from what is expected, if there is one, and what became of the call: that it was refused,
    changed files or changed none, and that it left files."""
    asked, style = amendments_of(options)
    wanted = Expected(tree, outcomes.outcomes(tree, asked, style, own))
    again = (0, "nothing changed\n" + wanted.left_lines, ""), wanted.tree
    words = ["amend", *options, "--recursive", "."]
    fault = fault_of_call(program, root, tree, words, wanted, again if is_settled(asked) else None)
    return fault, None if fault else became_of(tree, wanted)


def became_of(tree, wanted):
    if wanted.answer[0]:
        return ["refused"]
    return ["unchanged" if wanted.tree == tree else "changed"] + (["left"] if wanted.left else [])


def fault_of_call(program, root, tree, words, wanted, again):
    """Makes a dry run, a check, the call, its undo, a redo and the call again on the tree. Names
    the first difference from what is expected, if there is one. `again` is what the second call is
    to print and the tree that it makes, or None if it isn't made."""
    write_tree(root, tree)
    for option, answer in ("--dry-run", wanted.dry_run), ("--check", wanted.check):
        found = call(program, root, *words, option)
        if found != answer:
            return f"with {option} it answers {found}\nand not {answer}"
    if read_tree(root) != tree:
        return "the dry run changes the tree"
    found = call(program, root, *words)
    if found != wanted.answer:
        return f"the call answers {found}\nand not {wanted.answer}"
    fault = difference(root, wanted.tree)
    if fault or wanted.answer[0] or wanted.tree == tree:
        return fault
    if call(program, root, "undo")[0] or read_tree(root) != tree:
        return "undo doesn't give back the tree"
    if call(program, root, "redo")[0] or read_tree(root) != wanted.tree:
        return "redo doesn't make the step again"
    if again:
        found = call(program, root, *words)
        if found != again[0]:
            return f"the same call again answers {found}\nand not {again[0]}"
        return difference(root, again[1])
    return None


def difference(root, wanted):
    """The first file that isn't as it is to be."""
    made = read_tree(root)
    for path in sorted(set(made) | set(wanted)):
        if made.get(path) != wanted.get(path):
            return f"{path} is {made.get(path)}\nand not {wanted.get(path)}"
    return None
