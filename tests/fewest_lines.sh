#!/usr/bin/env bash
# Compares what dry runs of annotate and amend print with `--diff` with `git diff --minimal`, on
# small files of random lines of which many are alike: each diff adds and removes as few lines.
# Prints how many diffs were compared; ends with status 1 at the first fault.
# usage: tests/fewest_lines.sh PROGRAM [ROUNDS]      (200 files by default)
# The tags below are data: REUSE-IgnoreStart
set -euo pipefail
. "$(dirname "$0")/common.sh"
use_git
wants python3 python3
tree=$room/tree before=$room/before
files=${2:-200}

# Files of random lines, most with a header somewhere near their start
mkdir "$tree"
python3 - "$tree" "$files" << 'PYTHON'
import random, sys

tree, files = sys.argv[1], int(sys.argv[2])
random.seed()
lines = ['', '', '#', '#', 'x = 1', 'x = 1', 'y', '# A note', '# SPDX-License-Identifier: MIT',
         '# SPDX-License-Identifier: MIT', '# SPDX-License-Identifier: GPL-2.0-only',
         '# SPDX-FileCopyrightText: 2020 Jane Doe', '# SPDX-FileCopyrightText: 2021 Jane Doe',
         '# SPDX-FileContributor: B', '#!/bin/sh']
for number in range(files):
    with open(f'{tree}/{number}.py', 'w', encoding='utf-8') as file:
        picked = [random.choice(lines) for _ in range(random.randrange(1, 24))]
        file.write('\n'.join(picked) + random.choice(['\n', '\n', '']))
PYTHON

# For each path of a diff how many lines it adds and removes
counted() {
  python3 - "$1" << 'PYTHON'
import sys

path, added, removed, in_hunk = None, 0, 0, False
def tell():
    if path is not None:
        print(path, added, removed)
# Each line of a file begins with a sign, so no other line of a hunk is taken for a heading.
for line in open(sys.argv[1], encoding='utf-8', newline='').read().split('\n'):
    if line.startswith('diff --git '):
        tell()
        path, added, removed, in_hunk = line.split(' b/')[1], 0, 0, False
    elif line.startswith('@@ '):
        in_hunk = True
    elif in_hunk:
        added += line[:1] == '+'
        removed += line[:1] == '-'
tell()
PYTHON
}

compared=0 lines=0
# The diff in `$room/diff` has as few lines as git's between these trees.
is_least() {
  local path added removed found=0
  local -A least=()
  while read -r added removed path; do
    least[${path##*/}]="$added $removed"
  done < <(git diff --no-index --no-renames --minimal --numstat "$before" "$tree")
  counted "$room/diff" > "$room/counted"
  while read -r path added removed; do
    [[ "$added $removed" == "${least[$path]:-none}" ]] ||
      fail "$1: $path: $added lines added and $removed removed, by git ${least[$path]:-none}"
    found=$((found + 1))
    lines=$((lines + added + removed))
  done < "$room/counted"
  ((found == ${#least[@]} && found > 0)) || fail "$1: $found paths, by git ${#least[@]}"
  compared=$((compared + found))
}

for words in 'annotate -y 2024 -c Roe' 'amend --remove-license MIT' \
  'annotate -l ISC --merge-copyrights' \
  'amend --replace-holder Jane?Doe A' 'annotate -c Joe -y 2022 --no-replace' 'amend --until 2031' \
  'amend --remove-header'; do
  read -ra call <<< "$words"
  call=("${call[@]//\?/ }")
  "$program" --root "$tree" "${call[@]}" -r -n --diff . > "$room/diff" 2> "$room/error" ||
    fail "$words: $(< "$room/error")"
  rm -rf "$before"
  cp -a "$tree" "$before"
  "$program" --root "$tree" "${call[@]}" -r . > "$room/out" 2> "$room/error" ||
    fail "$words: $(< "$room/error")"
  rm -rf "$tree/.reuse"
  is_least "$words"
done
echo "$compared diffs with $lines changed lines have as few as git's smallest"
