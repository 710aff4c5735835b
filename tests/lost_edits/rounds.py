"""Edits files while the program writes them (tests/lost_edits.sh).

usage: rounds.py PROGRAM ROOM ROUNDS
"""
# The tags below are data: REUSE-IgnoreStart
import collections
import concurrent.futures
import functools
import os
import random
import shutil
import signal
import subprocess
import sys
import time

PROGRAM, ROOM, ROUNDS = sys.argv[1], sys.argv[2], int(sys.argv[3])
FILES = 300
ANNOTATE = ["annotate", "-c", "Jane Doe", "-l", "MIT", "-y", "2024", "-r", "."]
# A call, the calls before it, and whether it makes files.
CALLS = {
    "annotate": ([], ANNOTATE),
    "undo": ([ANNOTATE], ["undo"]),
    "redo": ([ANNOTATE, ["undo"]], ["redo"]),
    "revert": ([ANNOTATE], ["revert", "1"]),
    "amend": ([ANNOTATE], ["amend", "--replace-license", "MIT", "ISC", "-r", "."]),
    "rollback": ([], ["log"]),
    "neighbours": ([], ["annotate", "-l", "MIT", "--force-dot-license", "-r", "."]),
    "undone neighbours": (
        [["annotate", "-l", "MIT", "--force-dot-license", "-r", "."]],
        ["undo"],
    ),
    "download": ([], ["download", "--texts", "TEXTS"]),
}


def call(tree, words):
    """Runs a call to its end: its status and what it printed."""
    words = [os.path.join(ROOM, "texts") if word == "TEXTS" else word for word in words]
    done = subprocess.run([PROGRAM, "--root", tree, *words], capture_output=True, text=True)
    return done.returncode, done.stdout + done.stderr


def name_of(number):
    return f"d{number % 7}/f{number:03}.py"


def make_tree(tree):
    for number in range(FILES):
        path = os.path.join(tree, name_of(number))
        os.makedirs(os.path.dirname(path), exist_ok=True)
        with open(path, "w") as out:
            out.write(f"print({number})\n" * 20)


def wait_for_writes(tree, run):
    """Waits until the call names the files of a batch, or removes some, or has ended."""
    folder = os.path.join(tree, ".reuse", "undo")
    while run.poll() is None:
        try:
            # (`new` alone is the entry)
            if any(name.startswith("new.") for name in os.listdir(folder)):
                return
            with open(os.path.join(folder, "head.json")) as head:
                if '"pending":{' in head.read():
                    return
        except FileNotFoundError:
            pass


class Append:
    """A line at the end of the file, written by one call."""

    def __init__(self, path):
        self.path, self.mark = path, f"# edit {time.time_ns()}\n"

    def make(self):
        try:
            out = os.open(self.path, os.O_WRONLY | os.O_APPEND)
        except FileNotFoundError:
            return False
        os.write(out, self.mark.encode())
        self.was = os.fstat(out)
        self.out = out
        return True

    def is_there(self):
        try:
            with open(self.path) as text:
                return self.mark in text.read()
        except FileNotFoundError:
            return False

    def is_adjacent(self):
        """Whether the name may have changed between this edit's opening and its writing: the file
        lost its name no later than it was written."""
        now = os.fstat(self.out)
        return now.st_ctime_ns <= self.was.st_mtime_ns


class Save(Append):
    """A new file, renamed over the old one, as editors save."""

    def make(self):
        if not os.path.exists(self.path):
            return False
        with open(self.path) as text:
            self.text = text.read() + self.mark
        beside = self.path + "~"
        with open(beside, "w") as out:
            out.write(self.text)
        self.out = os.open(beside, os.O_RDONLY)
        self.was = os.fstat(self.out)
        os.rename(beside, self.path)
        return True

    def is_adjacent(self):
        # (the renaming and a look with the renaming behind it are within one tick of the clock)
        now = os.fstat(self.out)
        return now.st_ctime_ns - self.was.st_ctime_ns <= 0


class Removal(Append):
    """The file goes."""

    def make(self):
        try:
            os.unlink(self.path)
        except FileNotFoundError:
            return False
        return True

    def is_there(self):
        return not os.path.exists(self.path)

    def is_adjacent(self):
        return False


class New(Append):
    """A file at a path that the call makes."""

    def make(self):
        try:
            out = os.open(self.path, os.O_WRONLY | os.O_CREAT | os.O_EXCL, 0o644)
        except (FileExistsError, FileNotFoundError):
            return False
        os.write(out, self.mark.encode())
        self.was, self.out = os.fstat(out), out
        return True


def target_of(tree, call_name, kind):
    number = random.randrange(FILES)
    path = os.path.join(tree, name_of(number))
    if call_name in ("neighbours", "undone neighbours"):
        return path + ".license"
    if call_name == "download":
        return os.path.join(tree, "LICENSES", f"LicenseRef-{number:03}.txt")
    return path


def kinds_of(call_name):
    if call_name in ("neighbours", "download"):
        return (New,)
    return (Append, Save, Removal)


def prepare(call_name, tree):
    make_tree(tree)
    before, words = CALLS[call_name]
    if call_name == "download":
        words = words + [f"LicenseRef-{number:03}" for number in range(FILES)]
    for each in before:
        status, told = call(tree, each)
        assert status == 0, (each, told)
    if call_name == "rollback":
        kill_midway(tree)
    return words


def kill_midway(tree):
    """Leaves a run that was killed while it named its files."""
    for _ in range(50):
        run = subprocess.Popen([PROGRAM, "--root", tree, *ANNOTATE], stdout=subprocess.DEVNULL)
        was = os.stat(os.path.join(tree, name_of(0))).st_ino
        while run.poll() is None:
            if os.stat(os.path.join(tree, name_of(0))).st_ino != was:
                break
        run.send_signal(signal.SIGKILL)
        run.wait()
        head = os.path.join(tree, ".reuse", "undo", "head.json")
        if os.path.exists(head) and '"pending":{' in open(head).read():
            return
        shutil.rmtree(tree)
        make_tree(tree)
    sys.exit("no run was killed while it named its files")


def leads_on(tree, what):
    """The ways out of whatever the call has left."""
    for words in (["log"], ["recover"], ["recover", "--skip-moved"]):
        status, told = call(tree, words)
        if status == 0:
            return call(tree, ["log"])[0] == 0
    raise SystemExit(f"fault: no way out after {what}: {told}; kept in {tree}")


def play(call_name, kind, number):
    """One call with one edit: how it went."""
    tree = os.path.join(ROOM, f"{call_name.replace(' ', '_')}-{kind.__name__}-{number}")
    words = prepare(call_name, tree)
    words = [os.path.join(ROOM, "texts") if word == "TEXTS" else word for word in words]
    edit = kind(target_of(tree, call_name, kind))
    run = subprocess.Popen(
        [PROGRAM, "--root", tree, *words], stdout=subprocess.DEVNULL, stderr=subprocess.PIPE
    )
    wait_for_writes(tree, run)
    time.sleep(random.random() * 0.02 if number % 2 else 0)
    made = edit.make()
    run.wait()
    told = run.stderr.read().decode()
    what = f"{call_name}, {kind.__name__.lower()}"
    if made and not edit.is_there():
        # An undo of a made file removes what it has seen there.
        result = "adjacent" if edit.is_adjacent() else "lost"
    elif not made:
        result = "late"
    elif run.returncode == 0:
        result = "kept"
    else:
        result = "interrupted"
    if result == "lost":
        print(f"fault: {what}: the edit of {edit.path} is lost, status {run.returncode}: {told}")
    else:
        leads_on(tree, what)
        if made and result != "adjacent" and kind is not Removal and not edit.is_there():
            print(f"fault: {what}: the edit of {edit.path} is lost by what came after")
            result = "lost"
    if result != "lost":
        shutil.rmtree(tree)
    return result


def main():
    random.seed(os.getpid())
    os.makedirs(os.path.join(ROOM, "texts"))
    for number in range(FILES):
        with open(os.path.join(ROOM, "texts", f"LicenseRef-{number:03}.txt"), "w") as out:
            out.write("text\n")
    total = collections.Counter()
    with concurrent.futures.ThreadPoolExecutor(os.cpu_count()) as pool:
        for call_name in CALLS:
            for kind in kinds_of(call_name):
                play_one = functools.partial(play, call_name, kind)
                counts = collections.Counter(pool.map(play_one, range(ROUNDS)))
                total += counts
                said = ", ".join(f"{counts[key]} {key}" for key in sorted(counts))
                print(f"{call_name}, {kind.__name__.lower()}: {said}", flush=True)
    said = ", ".join(f"{total[key]} {key}" for key in sorted(total))
    print(f"{sum(total.values())} calls: {said}")
    sys.exit(1 if total["lost"] else 0)


main()
