#!/usr/bin/env bash
# Tries our hook by Debian's pre-commit on a repository of its own, and what docs/HOWTO.md says for
# a git alias, for a check in CI and for what git is to ignore. Ends with status 1 at the first
# fault.
# usage: tests/pre_commit.sh PROGRAM
set -euo pipefail
# The tags below are data: REUSE-IgnoreStart
. "$(dirname "$0")/common.sh"
wants pre-commit pre-commit
wants git git
wants make make
top=$(realpath "$(dirname "$0")/..")
usage=$top/docs/HOWTO.md
header='# SPDX-License-Identifier: MIT'
export PRE_COMMIT_HOME=$room/cache HOME=$room GIT_CONFIG_NOSYSTEM=1
export GIT_AUTHOR_NAME=a GIT_AUTHOR_EMAIL=a@a GIT_COMMITTER_NAME=a GIT_COMMITTER_EMAIL=a@a
mkdir "$room/bin"
ln -s "$program" "$room/bin/reuse-undo"
PATH=$room/bin:$PATH

# The lines of the document's block that begins with these words
block() {
  awk -v "head=\`\`\`$1" \
    '$0 == "```" { shown = 0 } shown { print }
    $0 == head { shown = 1; any = 1 } END { exit !any }' "$usage"
}

# A repository with these files, each by its path and its text with escapes, staged
repository() {
  rm -rf "$room/tree"
  git init -q "$room/tree"
  cd "$room/tree"
  block 'gitignore' > .gitignore
  while (($#)); do
    mkdir -p "$(dirname "$1")"
    printf %b "$2" > "$1"
    shift 2
  done
  git add -A
}

begins() { [[ $(head -n 1 "$1") == "$2" ]] || fail "$1 begins $(head -n 1 "$1")"; }

# The hook, from a clone of the repository that has it
hook() {
  git init -q "$room/hooks"
  cp "$top/.pre-commit-hooks.yaml" "$room/hooks"
  git -C "$room/hooks" add -A
  git -C "$room/hooks" commit -q -m hooks
  git -C "$room/hooks" tag v1.0.0
  repository a.py 'x\n' b.py "# SPDX-License-Identifier: ISC\n\nx\n" sub/c.xyz 'x\n' p.png \
    '\0211\0' LICENSES/MIT.txt 'text\n' LICENSE 'text\n' \
    REUSE.toml 'version = 1\n' 'sub/d e.c' 'int x;\n'
  ln -s a.py link.py
  block 'yaml pre-commit' | sed "s#https://.*#$room/hooks#" > .pre-commit-config.yaml
  pre-commit autoupdate > "$room/out" 2>&1 || fail "autoupdate: $(cat "$room/out")"
  grep -q "^    rev: 'v1.0.0'" .pre-commit-config.yaml || fail "$(cat .pre-commit-config.yaml)"
  sed -i "1i $header" .pre-commit-config.yaml .gitignore
  git add -A
  pre-commit install > "$room/out" 2>&1
  if git commit -q -m first > "$room/out" 2>&1; then fail 'files without a header are committed'; fi
  grep -q 'files were modified by this hook' "$room/out" ||
    fail "the hook tells: $(cat "$room/out")"
  [[ $(git status --porcelain |
    grep -v '^A  ') == $'AM a.py\nAM "sub/d e.c"\n?? p.png.license' ]] ||
    fail "the hook changes $(git status --porcelain)"
  begins a.py '# SPDX-FileCopyrightText: '"$(date -u +%Y)"' Jane Doe'
  git add -A
  git commit -q -m first > "$room/out" 2>&1 ||
    fail "files with a header are not committed: $(cat "$room/out")"
  [[ -z $(git ls-files .reuse) ]] || fail 'the journal is committed'
  [[ $(reuse-undo log | wc -l) == 1 ]] || fail "the hook's steps: $(reuse-undo log)"
  reuse-undo undo > "$room/out"
  begins a.py x
  hook_makes_a_neighbour
  echo "pre-commit: the hook annotates staged files without a header, and no others"
}

# The hook stops a commit whose files all stay as they are, where it made a neighbour.
hook_makes_a_neighbour() {
  git reset -q --hard
  printf '\0211\0' > q.png
  git add q.png
  if git commit -q -m neighbour > "$room/out" 2>&1; then
    fail 'a file without its neighbour is committed'
  fi
  [[ $(git status --porcelain) == $'A  q.png\n?? q.png.license' ]] ||
    fail "the hook changes $(git status --porcelain)"
  git add -A
  git commit -q -m neighbour > "$room/out" 2>&1 ||
    fail "a neighbour is not committed: $(cat "$room/out")"
}

# The alias annotates what git knows.
alias_of_git() {
  repository a.py 'x\n' sub/b.py 'x\n' sub/LICENSE 'text\n' c.xyz 'x\n' REUSE.toml 'version = 1\n'
  echo x > unknown.py
  ln -s a.py link.py
  git add link.py
  block 'sh alias' > "$room/alias"
  . "$room/alias"
  git headers sub > "$room/out" || fail "the alias: $(cat "$room/out")"
  [[ $(< "$room/out") == 'changed sub/b.py' ]] || fail "the alias tells: $(cat "$room/out")"
  git headers > "$room/out"
  begins a.py '# SPDX-FileCopyrightText: '"$(date -u +%Y)"' Jane Doe'
  begins unknown.py x
  echo "git alias: what git knows is annotated"
}

# The commands of a CI's file, run as it runs them, where nothing is to be fetched or installed
steps() {
  "$(sed -n '1s/^#! *//p' "$(command -v pre-commit)")" - "$1" << 'PYTHON' > "$room/steps"
import sys, yaml
job = yaml.safe_load(open(sys.argv[1]))
job = job.get("jobs", job)["headers"]
print("\n".join(job.get("script") or [step["run"] for step in job["steps"] if "run" in step]))
PYTHON
  bash -e -o pipefail "$room/steps"
}

# The check, by itself and called by each snippet, prints a file without a header and fails; once
# all files have one it passes. It changes nothing.
check() {
  local name call calls=("bash $room/check" 'steps .github/workflows/headers.yml'
    'steps .gitlab-ci.yml' 'pre-commit run --all-files' 'make headers')
  for name in apt-get wget; do printf '#!/bin/sh\n' > "$room/bin/$name"; done
  printf '#!/bin/sh\nexec "$@"\n' > "$room/bin/sudo"
  chmod +x "$room/bin"/*
  repository a.py 'x\n' data.xyz 'x\n'
  mkdir -p .github/workflows
  block 'sh check' > "$room/check"
  block 'yaml github' > .github/workflows/headers.yml
  block 'yaml gitlab' > .gitlab-ci.yml
  block 'yaml pre-commit check' > .pre-commit-config.yaml
  block make > Makefile
  git add -A
  for call in "${calls[@]}"; do
    if $call > "$room/out" 2>&1; then fail "$call passes a file without a header"; fi
    grep -q '^would change a.py' "$room/out" || fail "$call: $(cat "$room/out")"
  done
  [[ ! $(git status --porcelain | grep -v '^A ') ]] || fail "the check changes $(git status -s)"
  reuse-undo annotate -l MIT --recursive --skip-unrecognised . > "$room/out"
  git add -A
  for call in "${calls[@]}"; do
    $call > "$room/out" 2>&1 || fail "$call fails: $(cat "$room/out")"
  done
  mkdir -p .reuse
  echo x > .reuse/styles.toml
  for call in "${calls[@]}"; do
    if $call > "$room/out" 2>&1; then fail "$call passes what is refused"; fi
    grep -q 'bad styles' "$room/out" || fail "$call: $(cat "$room/out")"
  done
  echo "check in CI: ${#calls[@]} ways fail for want of a header, and pass with it"
}

hook
alias_of_git
check
