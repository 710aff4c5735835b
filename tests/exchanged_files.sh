#!/usr/bin/env bash
# Exchanges files for others all the time while runs go: annotate, undo, redo, revert, and the
# rollback of a run that was stopped. Another process takes a file out and puts the next version in,
# in one step of the system. What it takes out must always be a whole version that it put in, or
# such a version with the header that annotate writes, byte for byte. Each run must be made, or be
# refused in words, and none may wait. Once the exchanges have ended the journal opens, a call
# works, and what it changes is undone. A version that is put in between the moment at which a run
# reads the file and that at which it names its new file is replaced by that one, since no system
# call compares and replaces: how often that happens is counted and printed, and so is how many runs
# were refused since a file was another one at a later look. That each such moment is met, and just
# one at a time, is the part of races.sh. Ends with status 1 at the first fault, and if no call was
# made or none met an exchange.
# usage: tests/exchanged_files.sh PROGRAM [ROUNDS]
# ROUNDS: how many calls are made, at least 40 (200).
# The tags below are data: REUSE-IgnoreStart
set -euo pipefail
. "$(dirname "$0")/common.sh"
wants python3 python3

python3 - "$program" "$room" "${2:-200}" << 'PYTHON'
import ctypes, itertools, multiprocessing, os, random, re, subprocess, sys, time

program, room, rounds = sys.argv[1], sys.argv[2], int(sys.argv[3])
tree = os.path.join(room, 'tree')
NAMES = ['a.py', 'b.py', 'sub/c.py']
HEADER = b'# SPDX-FileCopyrightText: 2024 Jane Doe\n#\n# SPDX-License-Identifier: MIT\n\n'
FIRST = b'#!/usr/bin/python3\n'
AT_PATH, EXCHANGE = -100, 2
library = ctypes.CDLL(None, use_errno=True)


def fail(text):
    print(f'fault: {text}', file=sys.stderr)
    os._exit(1)


def version(name, number):
    """The version of a file with this number: its length grows and shrinks with the number."""
    text = b''.join(b'%s %d %d\n' % (name.encode(), number, k) for k in range(number % 7 * 300 + 1))
    return (FIRST if number % 3 == 0 else b'') + text


def annotated(text):
    if text.startswith(FIRST):
        return FIRST + b'\n' + HEADER + text[len(FIRST):]
    return HEADER + text


def number_in(name, text):
    """The number of the version, and whether it has the header. It must be whole."""
    found = re.search(rb'^%s (\d+) 0$' % name.encode(), text, re.M)
    if not found:
        fail(f'{name}: what stands there is no version: {text[:200]}')
    number = int(found[1])
    whole = version(name, number)
    if text == whole:
        return number, False
    if text == annotated(whole):
        return number, True
    fail(f'{name}: version {number} is neither whole nor annotated')


def exchange(one, other):
    if library.renameat2(AT_PATH, one.encode(), AT_PATH, other.encode(), EXCHANGE):
        return ctypes.get_errno()
    return 0


def exchange_all(ended, counts, pause):
    """Puts version after version in, and looks at what it takes out."""
    numbers = dict.fromkeys(NAMES, 0)
    aside = os.path.join(room, 'aside')
    while not ended.is_set():
        name = random.choice(NAMES)
        path = os.path.join(tree, name)
        with open(aside, 'wb') as file:
            file.write(version(name, numbers[name] + 1))
        if exchange(aside, path):
            continue
        with open(aside, 'rb') as file:
            number, _ = number_in(name, file.read())
        if number > numbers[name]:
            fail(f'{name}: version {number} was never put in')
        counts[0] += 1
        if number < numbers[name]:
            counts[1] += 1
        numbers[name] += 1
        if pause:
            time.sleep(random.random() * pause)


def run(*words):
    try:
        return subprocess.run([program, '--root', tree, *words], capture_output=True, timeout=60)
    except subprocess.TimeoutExpired:
        fail(f'{words}: the run waits')


def check_files():
    for name in NAMES:
        with open(os.path.join(tree, name), 'rb') as file:
            number_in(name, file.read())


os.makedirs(os.path.join(tree, 'sub'))
for name in NAMES:
    with open(os.path.join(tree, name), 'wb') as file:
        file.write(version(name, 0))
probe = os.path.join(room, 'probe')
open(probe, 'w').close()
if exchange(probe, os.path.join(tree, 'a.py')) or exchange(probe, os.path.join(tree, 'a.py')):
    print('this file system does not exchange files')
    sys.exit(77)

ANNOTATE = ['annotate', '-c', 'Jane Doe', '-y', '2024', '-l', 'MIT']
REFUSALS = re.compile(rb'reuse-undo: (.*: moved|store fault|interrupted|nothing to (undo|redo)|'
                      rb'no such step: .*)')
made, refused, caught = {}, {}, 0
counts = multiprocessing.Array('q', 2)
for part, pause in enumerate((0, 0.05, 0.5, 3)):
    ended = multiprocessing.Event()
    process = multiprocessing.Process(target=exchange_all, args=(ended, counts, pause))
    if part:
        # Each part begins with the versions of number 0.
        for name in NAMES:
            with open(os.path.join(tree, name), 'wb') as file:
                file.write(version(name, 0))
        run('forget', '--all')
    process.start()
    limit = time.monotonic() + 120
    for call in itertools.count():
        # The first part goes on until a call has met an exchange, and one was made.
        is_shown = part or made and caught or time.monotonic() > limit
        if call >= max(rounds // 4, 10) and is_shown:
            break
        kind = random.choice(['annotate', 'annotate', 'annotate one', 'undo', 'redo', 'revert'])
        words = {'annotate': [*ANNOTATE, '-r', '.'], 'annotate one': [*ANNOTATE, 'sub/c.py'],
                 'undo': ['undo'], 'redo': ['redo'],
                 'revert': ['revert', '--skip-moved', '1']}[kind]
        answer = run(*words)
        if answer.returncode == 0:
            made[kind] = made.get(kind, 0) + 1
        elif answer.returncode == 1 and REFUSALS.search(answer.stderr):
            refused[kind] = refused.get(kind, 0) + 1
            caught += re.search(rb'(: moved|store fault|interrupted)', answer.stderr) is not None
            if b': moved' in answer.stderr:
                # A step that stopped may be pending, with a file that was exchanged since.
                run('recover', '--skip-moved')
        else:
            fail(f'{kind}: status {answer.returncode}, {answer.stderr.decode()}')
        if not process.is_alive():
            fail('the process that exchanges files has ended')
    ended.set()
    process.join()
    if process.exitcode:
        sys.exit(1)
    check_files()
    # Now that nobody exchanges anything, a call works and is undone.
    answer = run('recover', '--skip-moved')
    if answer.returncode:
        fail(f'recover: {answer.stderr.decode()}')
    before = {name: open(os.path.join(tree, name), 'rb').read() for name in NAMES}
    answer = run('annotate', '--contributor', 'Nobody', '-r', '.')
    if answer.returncode:
        fail(f'the last annotate: {answer.stderr.decode()}')
    answer = run('undo')
    if answer.returncode:
        fail(f'the last undo: {answer.stderr.decode()}')
    for name in NAMES:
        if open(os.path.join(tree, name), 'rb').read() != before[name]:
            fail(f'{name}: undo leaves other bytes')
    if not os.path.isdir(os.path.join(tree, '.reuse', 'undo')):
        fail('the journal is gone')
if not made or not caught:
    fail(f'nothing is shown: {sum(made.values())} calls were made, and {caught} met an exchange')
print(f'{sum(made.values())} calls were made and {sum(refused.values())} refused while {counts[0]} '
      f'files were exchanged, {caught} of these since a file had been: each file is whole at all '
      f'times; {counts[1]} versions were put in between the read and the new name, and replaced')
PYTHON
