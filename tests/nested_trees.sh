#!/usr/bin/env bash
# Runs the program on a tree that holds other people's data: a clone, a submodule, folders of other
# version control, and a tree with a journal of its own. Annotating everything, undoing and redoing
# it touches none of them. Ends with status 1 at the first fault.
# usage: tests/nested_trees.sh PROGRAM
set -euo pipefail
. "$(dirname "$0")/common.sh"
use_git
tree=$room/tree

# A repository with two commits
git init -q "$room/library"
for k in 1 2; do
  echo "line = $k" > "$room/library/file$k.py"
  printf '{"number": %s}\n' $k > "$room/library/data$k.json"
  git -C "$room/library" add -A
  git -C "$room/library" commit -qm "Commit $k"
done

# The tree: a repository with a submodule, a clone that it doesn't know, and more
git init -q "$tree"
echo x > "$tree/own.py"
git -C "$tree" submodule --quiet add "$room/library" vendor/module
git -C "$tree" add -A
git -C "$tree" commit -qm Start
git clone -q "$room/library" "$tree/vendor/clone"
git clone -q --bare "$room/library" "$tree/vendor/CAPITALS/.GIT"
git clone -q --bare "$room/library" "$tree/vendor/mirror"
echo 'x = 1' > "$tree/vendor/mirror/hooks/hook.py"
for name in .hg .svn .jj .bzr _darcs .Svn .sl .pijul .Repo CVS; do
  mkdir -p "$tree/vendor/$name/store"
  echo 'x = 1' > "$tree/vendor/$name/store/data.py"
  echo 'x' > "$tree/vendor/$name/requires"
done
mkdir -p "$tree/nested"
echo 'x = 1' > "$tree/nested/a.py"
"$program" --root "$tree/nested" annotate -l MIT a.py > "$room/out"

# The names and bytes of all that is somebody else's
foreign() {
  (cd "$tree" &&
    find . \( -ipath '*/.git/*' -o -iname .git -o -ipath '*/.hg/*' -o -ipath '*/.svn/*' \
    -o -ipath '*/.jj/*' -o -ipath '*/.bzr/*' -o -ipath '*/_darcs/*' \
    -o -path '*/mirror/*' -o -ipath '*/.sl/*' -o -ipath '*/.pijul/*' -o -ipath '*/.repo/*' \
    -o -path '*/CVS/*' -o -path './nested/.reuse/undo*' \) -type f -not -name index -print0 |
    sort -z | xargs -0 sha256sum)
}
# What git says of each repository, but for the files that were annotated
check() {
  local repository
  for repository in . vendor/clone vendor/module vendor/CAPITALS/.GIT vendor/mirror; do
    command git -C "$tree/$repository" fsck --strict > "$room/fsck" 2>&1 ||
      fail "$1: git fsck of $repository: $(cat "$room/fsck")"
    ! grep -qi 'bad\|error\|missing' "$room/fsck" ||
      fail "$1: git fsck of $repository: $(cat "$room/fsck")"
  done
}
status() {
  (cd "$tree" &&
    for repository in . vendor/clone vendor/module; do command git -C $repository status \
    --porcelain; done)
}

before=$(foreign)
files=$(cd "$tree" &&
  find . -type f -not -path './.reuse/*' | sort | xargs -d '\n' sha256sum | grep -v '/index$')
first=$(status)
(($(wc -l <<< "$before") > 50)) || fail 'nothing is nested'
"$program" --root "$tree" annotate -l MIT -c 'Jane Doe' -y 2024 -r --fallback-dot-license . \
  > "$room/out" || fail 'annotate is refused'
grep -qx 'changed vendor/clone/file1.py' "$room/out" || fail 'a file of a clone is not annotated'
grep -qx 'changed nested/a.py' "$room/out" || fail 'a file of a nested tree is not annotated'
[[ $(foreign) == "$before" ]] || fail "annotate: $(diff <(echo "$before") <(foreign))"
check annotate
"$program" --root "$tree/nested" log > "$room/log" || fail 'the nested journal is broken'
[[ $(wc -l < "$room/log") == 1 ]] || fail 'the nested journal has another step'
"$program" --root "$tree" undo > "$room/undone" || fail 'undo is refused'
[[ $(foreign) == "$before" ]] || fail 'undo touches what is nested'
[[ $(cd "$tree" &&
  find . -type f -not -path './.reuse/*' | sort | xargs -d '\n' sha256sum |
  grep -v '/index$') == "$files" ]] || fail 'undo gives another tree'
[[ $(status | grep -v '^?? .reuse/$') == "$(grep -v '^?? .reuse/$' <<< "$first")" ]] ||
  fail "undo: git status: $(status)"
check undo
"$program" --root "$tree" redo > "$room/redone" || fail 'redo is refused'
[[ $(foreign) == "$before" ]] || fail 'redo touches what is nested'
check redo
# Given by name, what is nested is no path.
for path in vendor/clone/.git vendor/clone/.git/config vendor/module/.git .git \
  vendor/.svn/requires vendor/CAPITALS/.GIT/HEAD nested/.reuse/undo/head.json; do
  found=0
  "$program" --root "$tree" annotate -l MIT --force-dot-license "$path" > "$room/out" \
    2> "$room/error" || found=$?
  [[ $found == 1 && $(< "$room/error") == "reuse-undo: $path: no such path" ]] ||
    fail "$path: status $found, $(< "$room/error")"
done
[[ $(foreign) == "$before" ]] || fail 'a path that is nested is touched'
echo "$(wc -l <<< "$before") files of a repository, a clone, a submodule, other version control" \
  "and a nested journal are as they were"
