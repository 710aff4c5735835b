"""Tries the wrong bodies of crates in rounds: many edits of different functions in one check.

A body is checked against contracts alone, so one check of a copy tells of many edits at once. Each
edited function, or a closure of it, must be among those of which a goal of its own fails. That a
function which it calls isn't proved says nothing of it. What a round leaves open is tried once more
with less beside it, and then alone.
usage: rounds.py TOP ROOM LANES gate|checks CRATE..
    TOP is the repository, of which ROOM, an empty folder, gets a copy. So many LANES of checks run
    side by side. The libraries there are those that the gate kept, or that checks kept.
"""
import collections
import concurrent.futures
import glob
import hashlib
import importlib.machinery
import math
import os
import re
import shutil
import signal
import subprocess
import sys
import tempfile
import time
import types

sys.dont_write_bytecode = True
PARTS = ("src", "specs", "proofs")
# The most edits of a round
MOST = 25
# Which crates passed, by the sums of all that was read
CACHE = os.environ.get("XDG_CACHE_HOME") or os.path.expanduser("~/.cache")
KEPT = f"{CACHE}/reuse-undo/wrong-bodies"
# What became of an edit, and what is said of it. (LIMIT: the prover met a limit of its own.)
OPEN, REFUSED, LIMIT, PROVED, NAMED, BAD, UNTRIED = range(7)
SAID = {
    PROVED: "NOT REFUSED",
    NAMED: "ONLY BY A NAME",
    BAD: "BAD EDIT",
    UNTRIED: "NOT TRIED",
}
# The last line of a check that came to the prover
ENDS = re.compile(r"(?m)^(?:logic=|only=|rattle: no verdict)")
# An error: its file, line and text
ERROR = re.compile(r"(?m)^(?:\./)?((?:src|specs|proofs)/[^:\s]+):(\d+):\d+: error\S*(.*)")
# A goal that isn't proved, of the function whose line is the next
GOAL = re.compile(r"note: src/\S+:\d+:\d+: .*not proved")
# A function's line, and what it says if it waits for the proof of another
FUNCTION = re.compile(r"fn (\S+): (.*)")
WAITS = re.compile(r"it calls|it passes|a call of|it waits|it reaches|depends on")
# Errors of a proof that only cites a name which is gone, or what another proof would give
CITES = re.compile(r"has no field|is not in scope|has no `|was not admitted")
# Errors at which a text of src/ or specs/ can't be read
UNREAD = re.compile(
    r"is not in scope|has no field|is no name|operand is missing|expected the end|cannot continue"
)
LIMITS = re.compile(
    r"antt ran out of (stack|the (steps|memory) that the check of one declaration may (take|use))"
    r"|(outgrew the memory limit|stopped at the step limit) \("
)


def load_kit():
    """Returns the module by which the kit's command rt calls the prover."""
    rt = shutil.which("rt") or sys.exit("The Rattle kit isn't there: no command rt.")
    made = types.ModuleType("rtlib")
    made.__file__ = os.path.join(os.path.dirname(os.path.realpath(rt)), "rtlib.py")
    importlib.machinery.SourceFileLoader("rtlib", made.__file__).exec_module(made)
    return made


def words_of(text):
    """Returns the names in a type or trait, without lifetimes and the paths before them.

    An `io::Error` is the kit's `IoError`."""
    text = re.sub(r"\bio::Error\b", "IoError", text)
    return [it for it in re.findall(r"'?\w+(?:\s*::)?", text) if re.fullmatch(r"[A-Za-z]\w*", it)]


class Function:
    """A function of a .rt file in the layout of `rt fmt`, by which lines tell where it ends."""

    HEAD = re.compile(r"( *)(?:pub(?:\(.*?\))? )?(?:(?:const|unsafe|final) )*fn (\w+)")
    TYPE = re.compile(r"(?m)^(?:pub(?:\(.*?\))? )?(?:struct|enum) (\w+)")
    BLOCK = re.compile(r"( *)(?:pub(?:\(.*?\))? )?(?:unsafe )?(impl|trait|mod)\b(.*)")

    def __init__(self, path, lines, first):
        indent, self.name = self.HEAD.match(lines[first]).groups()
        self.path, self.first, self.last = path, first, self.end(lines, first, indent)
        self.modules = self.modules_of(path)
        self.owner, self.is_of_trait, self.written = [], False, ""
        for at in range(first):
            block = self.BLOCK.match(lines[at])
            if block and len(block[1]) < len(indent) and self.end(lines, at, block[1]) > first:
                self.enter(block[2], " ".join([block[3], *lines[at + 1 : first]]))

    @staticmethod
    def modules_of(path):
        inside = re.sub(r"(^|/)(lib|main|mod)$", "", path[len("src/") : -len(".rt")])
        return inside.split("/") if inside else []

    @classmethod
    def homes(cls, sources):
        """Returns the modules of each type that one file alone declares, outside of modules in it."""
        found = collections.defaultdict(list)
        for path, text in sources.items():
            for name in cls.TYPE.findall(text):
                found[name].append(cls.modules_of(path))
        return {name: places[0] for name, places in found.items() if len(places) == 1}

    def go_home(self, homes):
        """Takes a type's own function to the module of that type, by which a check names it."""
        if self.owner and not self.is_of_trait:
            self.modules = homes.get(self.owner[0], self.modules)

    @staticmethod
    def end(lines, first, indent):
        """Returns the last line of an item that begins there."""
        if lines[first].endswith(";") or re.search(r"\{.*\}$", lines[first]):
            return first
        rest = range(first + 1, len(lines))
        return next((it for it in rest if lines[it] in (indent + "}", indent + ";")), len(lines))

    def enter(self, kind, head):
        """Notes a module, or the names of the impl or the trait that it stands in."""
        head = head.partition("{")[0]
        if kind == "mod":
            self.modules.append(head.strip())
            return
        generics = ""
        if head.startswith("<"):
            depth = [0]
            for before, it in zip(" " + head, head):
                depth.append(depth[-1] + (it == "<") - (it == ">" and before != "-"))
            cut = depth.index(0, 1)
            generics, head = head[:cut], head[cut:]
        head = re.split(r"\bwhere\b", head)[0]
        trait, _, of = head.rpartition(" for ") if kind == "impl" else ("", "", head.split(":")[0])
        bound = {*re.findall(r"[<,]\s*(?:const )?(\w+)", generics), "mut", "const", "dyn", "Self"}
        self.owner = [it for it in words_of(of) + words_of(trait) if it not in bound]
        self.is_of_trait = bool(trait)
        # Its own functions of a type with other types in it are named by all words of that.
        is_plain = self.is_of_trait or len(self.owner) < 2
        self.written = "".join(self.owner) if is_plain else "+".join(words_of(of))

    def is_meant(self, words):
        """Returns whether a `refused by:` row names it: by its name, perhaps behind its type's."""
        *owner, name = words.split("::")
        return name == self.name and all(it in self.owner for it in owner)

    def names(self, crate, listed):
        """Returns its name in a check of the crate, or None, and how its closures' begin.

        Without a list of the names it is the one that the text tells."""
        start = "::".join([crate, *self.modules, ""])
        path = [self.name]
        if self.owner and listed is None:
            path = [self.written, self.name]
        elif self.owner:
            inside = [it[len(start) :].split("::") for it in listed if it.startswith(start)]
            owners = {it[0] for it in inside if len(it) == 2 and it[1] == self.name}
            plain = [it.replace("_", "").lower() for it in self.owner]
            fits = [it for it in owners if all(w in it.replace("_", "").lower() for w in plain)]
            exact = [it for it in owners if it == self.written]
            if self.is_of_trait:
                exact = exact or sorted(fits, key=lambda it: (len(it), it))
            path = [*exact[:1], self.name]
        name = start + "::".join(path)
        is_found = (listed is None or name in listed) and len(path) == 1 + bool(self.owner)
        return name if is_found else None, start + "::".join(["fn", *path, ""])


class Edit:
    """A file of must-fail: what it changes, and what became of it."""

    def __init__(self, top, file):
        self.file, self.shown = file, os.path.relpath(file, top)
        # The changed lines by file and number, the functions, and their names in a check
        self.lines, self.functions, self.names, self.closures = {}, [], [], []
        # The function that it says it is refused by
        self.refuser = ""
        self.state, self.why, self.tries, self.is_alone = OPEN, "", 0, False

    def settle(self, state, why=""):
        self.state, self.why = state, why

    def read(self, sources):
        """Returns why it can't be applied, or None. Later pairs apply to what the earlier made."""
        path, old, texts = "", "", {}
        with open(self.file, encoding="utf-8") as it:
            rows = it.read().split("\n")
        for row in rows:
            if row.startswith("refused by: "):
                self.refuser = (re.findall(r"`([^`]*)`", row) or [""])[0]
            elif row.startswith("file: "):
                path = row[len("file: ") :].strip()
                if path not in sources:
                    return f"there is no file {path} below src/"
                texts.setdefault(path, sources[path])
            elif row.startswith("old: "):
                old = row[len("old: ") :]
            elif row.startswith("new:"):
                if not path or not old:
                    return "a 'new:' line stands before any 'file:' or 'old:' line"
                found = texts[path].count(old)
                if found != 1:
                    return f"an 'old:' text stands in {path} {found} times, and not once: {old}"
                new = row[len("new: ") :] if row[4:5] == " " else row[len("new:") :]
                texts[path], old = texts[path].replace(old, new), ""
        for path, text in texts.items():
            pairs = enumerate(zip(sources[path].split("\n"), text.split("\n")))
            self.lines.update({(path, at): now for at, (was, now) in pairs if was != now})
        return None if self.lines and not old else "it changes nothing, or an 'old:' has no 'new:'"

    def find(self, functions, crate, listed):
        """Finds the functions in which its lines stand.

        One with a line in none is tried alone. If it has no other line, as where a constant is
        changed, the function counts that it says it is refused by."""
        inside = []
        for path, at in self.lines:
            around = [f for f in functions if f.path == path and f.first <= at <= f.last]
            inner = max(around, key=lambda it: it.first, default=None)
            self.is_alone = self.is_alone or not inner
            inside += [inner] if inner else []
        if not inside:
            meant = [it for it in functions if it.is_meant(self.refuser)]
            inside = meant if len(meant) == 1 else []
        for function in inside:
            name, closures = function.names(crate, listed)
            if not name:
                self.forget_functions(is_alone=True)
                return
            if name not in self.names:
                self.functions.append(function)
                self.names.append(name)
                self.closures.append(closures)

    def forget_functions(self, is_alone):
        self.functions, self.names, self.closures, self.is_alone = [], [], [], is_alone

    def holds(self, path, line):
        """Returns whether a line of a file, counted from 1, is in what it changes."""
        places = [(it.path, it.first, it.last) for it in self.functions]
        places += [(path, at, at) for path, at in self.lines]
        return any(it == path and first < line <= last + 1 for it, first, last in places)


class Verdict:
    """What a check said of a crate's functions."""

    def __init__(self, crate, status, said):
        self.crate, self.status, self.said = crate, status, said
        self.came_to_prover = bool(ENDS.search(said))
        self.errors = [(path, int(line), text) for path, line, text in ERROR.findall(said)]
        # What is said of each function, and whether goals of its own aren't proved
        self.functions, self.goals, has_goals = {}, {}, False
        for line in said.split("\n"):
            found = FUNCTION.match(line)
            if found:
                self.functions[found[1]], self.goals[found[1]] = found[2], has_goals
            has_goals = not found and (has_goals or bool(GOAL.match(line)))

    def fails(self, name):
        """Returns whether a goal of the function's own, and not only of what it calls, fails."""
        said = self.functions[name]
        if not said.startswith(("not proved", "no proof")):
            return False
        place = "/".join(["proofs", *name.split("::")[1:], ""])
        errors = [text for path, _, text in self.errors if path.startswith(place)]
        if self.goals[name] or any(not CITES.search(it) for it in errors):
            return True
        return not errors and not WAITS.search(said)

    def refuses(self, edit):
        """Returns whether a function of the edit fails, or any function if it lies in none."""
        starts = tuple(edit.closures)
        names = [it for it in self.functions if it in edit.names or it.startswith(starts)]
        return any(self.fails(it) for it in (names if edit.names else self.functions))

    def proves(self, edit):
        """Returns whether each function of the edit is proved."""
        found = [self.functions.get(it, "") for it in edit.names]
        return bool(found) and all(it.startswith("proved") for it in found)

    def unread(self):
        """Returns the errors at which a text can't be read or compiled."""
        if not self.came_to_prover:
            return self.errors
        stated = [it for it in self.errors if not it[0].startswith("proofs/")]
        return [it for it in stated if UNREAD.search(it[2])]

    def tells(self):
        """Returns a line that says why it came to no verdict."""
        lines = [it for it in self.said.split("\n") if "error" in it] or [self.said.strip()[-200:]]
        return f"the check ended with status {self.status}: {lines[0][:300]}"


class Crate:
    """A crate whose edits are tried."""

    def __init__(self, kit, top, crate, checks, jobs, is_passed):
        self.kit, self.crate, self.name, self.folder = kit, crate, crate.name, crate.folder
        self.checks, self.jobs, self.rounds, self.sources = checks, jobs, 0, {}
        # Whether the gate has proved it, and whether a check has left what others begin with
        self.is_passed, self.is_begun = is_passed, False
        self.kept = f"{self.folder}/out/incremental"
        for at, _, names in os.walk(f"{self.folder}/src"):
            for name in names:
                with open(f"{at}/{name}", encoding="utf-8") as it:
                    self.sources[os.path.relpath(f"{at}/{name}", self.folder)] = it.read()
        self.edits = [Edit(top, it) for it in edits_of(top, self.name)]

    def check(self, folder, kept, *flags):
        """Checks the crate's text in a folder, over what was kept, and returns what was said."""
        words = [*self.kit.guarded(), self.kit.RATTLE, "check"]
        words += [*self.crate.words([*flags], keeps=False), "--incremental", kept]
        how = {"cwd": folder, "stdin": subprocess.DEVNULL, "stdout": subprocess.PIPE}
        how.update(stderr=subprocess.STDOUT, encoding="utf-8", errors="replace")
        ran = subprocess.run(words, **how)
        if ran.returncode == -signal.SIGKILL:
            # (most likely for memory)
            ran = subprocess.run(words, **how)
        return Verdict(self.name, ran.returncode, ran.stdout)

    def begin(self):
        """Finds the functions of the edits, and returns whether the crate is proved as it stands.

        Behind the gate that is known. Then no more is proved than what the rounds ask for, if each
        edit lies in functions whose names are told by the text."""
        os.makedirs(self.kept, exist_ok=True)
        for edit in self.edits:
            why = edit.read(self.sources)
            if why:
                edit.settle(BAD, why)
        self.is_begun = not (self.is_passed and self.finds_by_text())
        if not self.is_begun:
            return True
        verdict = self.checks(self.check, self.folder, self.kept, "--jobs", str(self.jobs))
        if verdict.status:
            print(f"{self.name} isn't proved as it stands: {verdict.tells()}", flush=True)
            return False
        self.find(verdict.functions)
        return True

    def find(self, listed):
        """Finds the functions of the edits, among those that a check lists, if it was made."""
        functions = []
        for path, text in self.sources.items():
            lines = text.split("\n")
            heads = [at for at, it in enumerate(lines) if Function.HEAD.match(it)]
            functions += [Function(path, lines, at) for at in heads]
        homes = Function.homes(self.sources)
        for function in functions:
            function.go_home(homes)
        for edit in self.edits:
            if edit.state == OPEN:
                edit.find(functions, self.name, listed)

    def finds_by_text(self):
        """Finds the functions of the edits by the text alone, and returns whether there are such.

        A check that is to prove a function of an unknown name ends at that, before all else."""
        self.find(None)
        opened = [it for it in self.edits if it.state == OPEN]
        names = list(dict.fromkeys(name for it in opened for name in it.names))
        is_found = all(it.names for it in opened) and bool(names)
        if is_found:
            nobody = f"{self.name}::no_function_has_this_name"
            flags = [word for it in (*names, nobody) for word in ("--only", it)]
            verdict = self.checks(self.check, self.folder, self.kept, *flags)
            is_found = f"has no function `{nobody}`" in verdict.said
        for it in opened:
            it.forget_functions(is_alone=False)
        if is_found:
            self.find(None)
        return is_found

    def group(self):
        """Returns the open edits in rounds: in one, no two touch a function or a line."""
        open_edits = [it for it in self.edits if it.state == OPEN]
        together = [it for it in open_edits if not it.is_alone]
        most = math.ceil(len(together) / (math.ceil(len(together) / MOST) or 1))
        rounds = []
        for edit in together:
            marks = {*edit.names, *edit.lines}
            found = next((it for it in rounds if len(it[1]) < most and not it[0] & marks), None)
            if not found:
                found = (set(), [])
                rounds.append(found)
            found[0].update(marks)
            found[1].append(edit)
        return [[it] for it in open_edits if it.is_alone] + [edits for _, edits in rounds]

    def try_round(self, edits, jobs):
        """Tries edits in one check of a copy."""
        texts = {}
        for edit in edits:
            for (path, at), now in edit.lines.items():
                texts.setdefault(path, self.sources[path].split("\n"))[at] = now
        asked = [it for edit in edits for it in edit.names]
        flags = [word for it in asked for word in ("--only", it)]
        with tempfile.TemporaryDirectory(dir=os.path.dirname(self.kept), prefix="round-") as room:
            for part in PARTS:
                if os.path.isdir(f"{self.folder}/{part}"):
                    shutil.copytree(f"{self.folder}/{part}", f"{room}/{part}")
            for path, lines in texts.items():
                with open(f"{room}/{path}", "w", encoding="utf-8") as it:
                    it.write("\n".join(lines))
            kept = f"{room}/kept" if self.is_begun else self.kept
            if self.is_begun:
                shutil.copytree(self.kept, kept, copy_function=link_or_copy)
            verdict = self.check(room, kept, "--jobs", str(jobs), *flags)
        self.rounds += 1
        (self.judge_alone if len(edits) == 1 else self.judge)(edits, verdict)

    def judge(self, edits, verdict):
        """Settles the edits that the check refuses. The others are tried again, at last alone."""
        unread = verdict.unread()
        guilty = [it for it in edits if any(it.holds(path, line) for path, line, _ in unread)]
        for edit in edits:
            if unread or not verdict.came_to_prover:
                # (who may be guilty is tried alone, or else each)
                edit.is_alone = edit in guilty or not guilty
            elif verdict.refuses(edit):
                edit.settle(REFUSED)
            else:
                edit.tries += 1
                edit.is_alone = edit.tries > 1 or verdict.proves(edit)

    def judge_alone(self, edits, verdict):
        edit, unread = edits[0], verdict.unread()
        if unread or not verdict.came_to_prover and re.search(r"\berror\[", verdict.said):
            path, line, text = unread[0] if unread else ("", 0, "")
            edit.settle(BAD, f"{path}:{line}{text[:200]}" if unread else verdict.tells())
        elif verdict.refuses(edit):
            edit.settle(REFUSED)
        elif verdict.status == 0:
            edit.settle(PROVED, "the crate is still proved")
        elif verdict.status == 3 and LIMITS.search(verdict.said):
            edit.settle(LIMIT)
        elif verdict.came_to_prover and verdict.status == 1:
            fails = [it for it in verdict.functions if verdict.fails(it)]
            why = f"what fails is {' '.join(fails)}" if fails else "no goal failed"
            edit.settle(PROVED if fails or verdict.proves(edit) else NAMED, why)
        else:
            edit.settle(UNTRIED, verdict.tells())

    def run(self):
        """Tries all edits, says what is to be said, and returns how many passed and failed."""
        start = time.monotonic()
        if not self.begin():
            return 0, len(self.edits)
        rounds = self.group()
        if rounds and not self.is_begun:
            # What the first one makes of the libraries and lemmas serves the others.
            self.checks(self.try_round, max(rounds, key=len), self.jobs)
            self.is_begun = True
            rounds = self.group()
        while rounds:
            jobs = max(self.jobs // len(rounds), 1)
            side_by_side([lambda it=it: self.checks(self.try_round, it, jobs) for it in rounds])
            rounds = self.group()
        return self.tell(time.monotonic() - start)

    def tell(self, took):
        count = collections.Counter(it.state for it in self.edits)
        for it in self.edits:
            if it.state in SAID:
                print(f"{it.shown}: {SAID[it.state]}{': ' * bool(it.why)}{it.why}", flush=True)
        passed = count[REFUSED] + count[LIMIT]
        by_limit = f", {count[LIMIT]} refused by a limit of the prover" if count[LIMIT] else ""
        print(
            f"{self.name}: {passed} of {len(self.edits)} edits refused, {self.rounds} rounds,"
            f" {took:.0f} seconds{by_limit}",
            flush=True,
        )
        return passed, len(self.edits) - passed


def edits_of(top, name):
    places = (f"crates/{name}/must-fail", f"tests/wrong_bodies/{name}")
    return [it for at in places for it in sorted(glob.glob(f"{glob.escape(top)}/{at}/*.edit"))]


def record_of(top, crate):
    """Returns the file that stands if the edits passed, over the same files and by the same kit."""
    made = hashlib.sha256(crate.stamp().encode())
    for file in (os.path.realpath(__file__), *edits_of(top, crate.name)):
        with open(file, "rb") as it:
            made.update(repr((os.path.basename(file), it.read())).encode())
    return f"{KEPT}/{crate.name}-{made.hexdigest()}"


def keep(record):
    try:
        os.makedirs(KEPT, exist_ok=True)
        open(record, "w").close()
    except OSError:
        # (then a later run tries the crate again)
        pass


def prepare(top, room, lanes, begins_with, names):
    """Makes the copy, with the libraries below the crates."""
    is_crate = lambda at: os.path.dirname(at) == f"{top}/crates"
    left_out = lambda at, found: {"out", "must-fail"} & {*found} if is_crate(at) else ()
    shutil.copytree(f"{top}/crates", f"{room}/crates", ignore=left_out)
    for name in ("crates.txt", "HANDLES"):
        shutil.copy2(f"{top}/{name}", room)
    # (it is the top of a repository)
    os.mkdir(f"{room}/.git")
    runs = [(["rt", "check", "--jobs", lanes], f"{room}/crates/{it}") for it in names]
    for words, folder in [(["rt", "ci"], room)] if begins_with == "gate" else runs:
        how = {"cwd": folder, "stdin": subprocess.DEVNULL, "stdout": subprocess.PIPE}
        ran = subprocess.run(words, **how, stderr=subprocess.STDOUT, errors="replace")
        if ran.returncode:
            sys.exit(f"{ran.stdout[-2000:]}{' '.join(words)} failed, so no edit was tried")


def side_by_side(calls):
    """Makes calls side by side, and returns what they gave."""
    with concurrent.futures.ThreadPoolExecutor(len(calls)) as pool:
        return [it.result() for it in [pool.submit(call) for call in calls]]


def link_or_copy(one, other):
    """Gives a kept file a second name. A check replaces such a file, and never writes into it."""
    if one.endswith(".oantt"):
        try:
            return os.link(one, other)
        except OSError:
            pass
    return shutil.copy2(one, other)


def main(top, room, lanes, begins_with, *names):
    kit = load_kit()
    # (its first call sets a signal's handler, which only the main thread may)
    kit.guarded()
    records = {it.name: record_of(top, it) for it in kit.crates_below(top) if it.name in names}
    old = [it for it in records if os.path.exists(records[it])]
    passed, failed = sum(len(edits_of(top, it)) for it in old), 0
    for it in old:
        print(f"{it}: {len(edits_of(top, it))} edits refused, by an earlier run of the same files")
    if len(old) < len(records):
        prepare(top, room, lanes, begins_with, [it for it in records if it not in old])
        pool = concurrent.futures.ThreadPoolExecutor(int(lanes))
        checks = lambda call, *given: pool.submit(call, *given).result()
        chosen = [it for it in kit.crates_below(room) if it.name in records and it.name not in old]
        jobs = max(int(lanes) // len(chosen), 1)
        is_passed = begins_with == "gate"
        crates = [Crate(kit, top, it, checks, jobs, is_passed) for it in chosen]
        # The largest begins first.
        crates.sort(key=lambda it: -sum(map(len, it.sources.values())))
        for crate, found in zip(crates, side_by_side([it.run for it in crates])):
            passed, failed = passed + found[0], failed + found[1]
            if not found[1]:
                keep(records[crate.name])
    print(f"{passed} passed, {failed} failed")
    return 1 if failed else 0


if __name__ == "__main__":
    sys.exit(main(*sys.argv[1:]))
