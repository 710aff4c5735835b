"""Takes the power away from runs of the program on one disk, and judges what is found then.

usage: crash.py PROGRAM STATES ROUNDS DEVICE DISK MOUNT_OPTIONS KEPT < RUNS

The disk is mounted at DISK. A line of RUNS is a name, a folder of STATES, and the words of a call;
lines of one name share its ROUNDS. A name that begins `rollback` has the call killed half way, and
the opening after it is what loses power. The first faulty tree of each name is put into KEPT, and
the status is 3 if there was one.
"""
import ctypes
import fcntl
import os
import random
import re
import shlex
import shutil
import struct
import subprocess
import sys
import threading
import time
from collections import Counter

# The call that shuts a file system down, and the flag by which its log isn't written out
FS_IOC_SHUTDOWN, NO_LOG_FLUSH = 0x8004587D, 2
JOURNAL = '.reuse/undo/'
libc = ctypes.CDLL(None, use_errno=True)


def files_of(tree, with_journal=False):
    """The bits and bytes of each regular file of a tree."""
    files = {}
    for folder, _, names in os.walk(tree):
        for name in names:
            full = os.path.join(folder, name)
            path = os.path.relpath(full, tree)
            if with_journal or not path.startswith(JOURNAL):
                with open(full, 'rb') as file:
                    files[path] = (os.stat(full).st_mode, file.read())
    return files


def call(tree, *words):
    """The status of a call, what it prints, and its refusal. Dates are left out, since a day may
    end between two calls, and so are notes."""
    ended = subprocess.run([program, '--root', tree, *words], capture_output=True, check=False)
    printed = re.sub(rb' \d{4}-\d\d-\d\d ', b' ', ended.stdout)
    return ended.returncode, printed, re.sub(rb'reuse-undo: note: .*\n', b'', ended.stderr)


def state_of(tree):
    """The log, and the files."""
    status, log, refusal = call(tree, 'log')
    if status:
        sys.exit(f'{tree}: the log is refused: {refusal}')
    return log, files_of(tree)


def is_pending(tree):
    """Whether the journal tells a step that is under way."""
    try:
        with open(f'{tree}/{JOURNAL}head.json', 'rb') as head:
            return b'"pending":{' in head.read()
    except FileNotFoundError:
        return False


class Run:
    """A call on a tree of a state: the states that may be found after a loss of power."""

    def __init__(self, name, state, *words):
        self.name, self.words = name, words
        self.state = f'{states}/{state}'
        self.first = files_of(f'{os.path.dirname(self.state)}/start')
        copy = f'{disk}/copy'
        shutil.copytree(self.state, copy)
        self.before = state_of(copy)
        status, _, refusal = call(copy, *words)
        if status:
            sys.exit(f'{name} on {state} is refused: {refusal}')
        self.after = state_of(copy)
        shutil.rmtree(copy)
        if self.after == self.before:
            sys.exit(f'{name} on {state} changes nothing')
        self.changed = [path for path in {*self.before[1], *self.after[1]}
                        if self.before[1].get(path) != self.after[1].get(path)]
        self.is_rollback = name.startswith('rollback')
        self.time = self.opening_time = None

    def measure(self):
        """Notes how long the call, or the opening, takes beside the other program at least."""
        self.time = min(timed(self.state, *self.words) for _ in range(3))
        if self.is_rollback:
            self.stop_half_way()
            self.opening_time = timed(None, 'log')

    def stop_half_way(self):
        """Leaves a tree on which the call was killed half way, and perhaps its opening too."""
        for _ in range(200):
            lay(self.state)
            kill_at_change(random.choice(self.changed), *self.words)
            if is_pending(tree):
                break
        else:
            sys.exit(f'{self.name}: no kill leaves a step under way')
        if self.opening_time and random.random() < 0.5:
            opening = start_call('log')
            time.sleep(random.uniform(0, self.opening_time))
            opening.kill()
            opening.communicate()


def lay(state):
    """Makes the tree on the disk that of a state, as a loss of power leaves it too."""
    shutil.rmtree(tree, ignore_errors=True)
    shutil.copytree(state, tree)
    handle = os.open(disk, os.O_RDONLY)
    libc.syncfs(handle)
    os.close(handle)


def timed(state, *words):
    """How long a call takes, on the tree as it is or on that of a state."""
    if state:
        lay(state)
    with beside(0.01):
        start = time.monotonic()
        call(tree, *words)
        return time.monotonic() - start


def number_of(path):
    """The number of the file at a path of the tree, if one is there: another file has another."""
    try:
        return os.lstat(f'{tree}/{path}').st_ino
    except FileNotFoundError:
        return None


def kill_at_change(path, *words):
    """Kills a call as soon as it has changed the path."""
    number = number_of(path)
    run = start_call(*words)
    while number_of(path) == number and run.poll() is None:
        pass
    run.kill()
    run.communicate()


def start_call(*words):
    """Begins a call on the tree."""
    return subprocess.Popen([program, '--root', tree, *words], stdout=subprocess.PIPE,
                            stderr=subprocess.STDOUT)


class beside:
    """Another program on the disk, which saves a file of its own and now and then syncs it all."""

    def __init__(self, pause):
        self.pause, self.end = pause, threading.Event()
        self.thread = threading.Thread(target=self.work)

    def work(self):
        try:
            with open(f'{disk}/beside', 'ab', buffering=0) as file:
                while not self.end.wait(random.uniform(0, self.pause)):
                    file.write(b'x')
                    if random.random() < 0.2:
                        libc.syncfs(file.fileno())
                    else:
                        os.fsync(file.fileno())
        except OSError:
            pass  # the power is gone

    def __enter__(self):
        self.thread.start()

    def __exit__(self, *_):
        self.end.set()
        self.thread.join()


def lose_power(longest, *words):
    """Takes the power away at a random moment of a call or after it; the status of a call that had
    ended by then. One that ends later tells nothing: XFS answers the sync of a folder with success
    once the file system is shut down, where a machine without power would answer no more."""
    handle = os.open(disk, os.O_RDONLY)
    with beside(longest / 4):
        run = start_call(*words)
        if random.random() < 0.25:
            run.wait()
            time.sleep(random.choice([0, random.uniform(0, longest)]))
        else:
            time.sleep(random.uniform(0, longest * 1.2))
        status = run.poll()
        fcntl.ioctl(handle, FS_IOC_SHUTDOWN, struct.pack('I', NO_LOG_FLUSH))
    run.communicate()
    os.close(handle)
    mount_again()
    return status


def mount_again():
    """Takes the disk away and mounts it again, so that its log is replayed."""
    subprocess.run(['umount', disk], check=True)
    try:
        os.close(os.open(device, os.O_RDONLY | os.O_EXCL))
    except OSError as error:
        sys.exit(f'{device}: {error}: another process has it mounted still')
    subprocess.run(['mount', '-o', options, device, disk], check=True)


def faults_of_files(run, found):
    """How many files are neither as before nor as after. Those of the first tree are source files;
    one of them is lost where it isn't there, is empty, or holds NULs alone."""
    before, after = run.before[1], run.after[1]
    faults = Counter()
    for path in {*before, *after, *found}:
        seen = found.get(path)
        if seen not in (before.get(path), after.get(path)):
            if path not in run.first:
                faults['made files torn'] += 1
            elif seen is None or not seen[1].strip(b'\0'):
                faults['source files lost'] += 1
            else:
                faults['source files torn'] += 1
    return faults


def faults_of_history(run, status):
    """The state that is found, and whether the journal opens, and leads back to the first tree."""
    ended, log, _ = call(tree, 'log')
    if ended:
        return None, ['history refused']
    now, outcome, faults = (log, files_of(tree)), None, []
    if now == run.before:
        outcome = 'before'
    elif now == run.after and not run.is_rollback:
        outcome = 'after'
    else:
        faults.append('neither before nor after')
    if status == 0 and outcome == 'before' and not run.is_rollback:
        faults.append('finished call lost')
    while not ended:
        ended, _, refusal = call(tree, 'undo')
    if refusal != b'reuse-undo: nothing to undo\n' or files_of(tree) != run.first:
        faults.append('no way back')
    return outcome, faults


def keep(run, found, faults):
    """Keeps the first tree of these runs in which a fault was found."""
    top = os.path.join(kept, run.name)
    if os.path.exists(top):
        return
    for path, (_, text) in found.items():
        full = os.path.join(top, path)
        os.makedirs(os.path.dirname(full), exist_ok=True)
        with open(full, 'wb') as file:
            file.write(text)
    with open(os.path.join(kept, 'FAULTS'), 'a', encoding='utf-8') as file:
        file.write(f'{run.name}: {shlex.join(run.words)}: {faults}\n')


def one_round(run):
    """One loss of power: the call's status, which state was found, and the faults."""
    if run.is_rollback:
        run.stop_half_way()
        status = lose_power(run.opening_time, 'log')
    else:
        lay(run.state)
        status = lose_power(run.time, *run.words)
    found = files_of(tree, with_journal=True)
    faults = faults_of_files(run, {path: found[path] for path in found
                                   if not path.startswith(JOURNAL)})
    outcome, of_history = faults_of_history(run, status)
    faults.update(of_history)
    if faults:
        keep(run, found, dict(faults))
    return status, outcome, faults


def rounds_of(name, runs):
    """So many losses of power, told in one line; how many of them had faults."""
    seen, often, most, faulty = Counter(), Counter(), Counter(), 0
    for number in range(rounds):
        status, outcome, faults = one_round(runs[number % len(runs)])
        seen.update([status == 0, outcome])
        often.update(list(faults))
        most |= faults
        faulty += bool(faults)
    line = (f'{name}: {rounds} losses of power, {seen[True]} of calls that had ended well; '
            f'found as before {seen["before"]}, as after {seen["after"]}')
    if faulty:
        told = [f'{what} {often[what]} times' + (f' (up to {most[what]})' if most[what] > 1 else '')
                for what in sorted(often)]
        line += f'; FAULTS in {faulty}: ' + ', '.join(told)
    print(line, flush=True)
    return faulty


def main():
    """All runs."""
    runs = {}
    for line in sys.stdin:
        words = shlex.split(line)
        runs.setdefault(words[0], []).append(Run(*words))
    for run in sum(runs.values(), []):
        run.measure()
    faulty = sum(rounds_of(name, of_name) for name, of_name in runs.items())
    sys.exit(3 if faulty else 0)


program, states, rounds, device, disk, options, kept = sys.argv[1:]
rounds, tree = int(rounds), f'{disk}/tree'
main()
