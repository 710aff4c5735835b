#!/usr/bin/env bash
# Calls of a process that may have 64 files open. One tree has 100 folders, each in the one before
# it; one has 2,000 side by side. annotate, undo, redo, amend, undo and revert succeed on each, and
# afterwards its files are what the same call without that limit makes of a copy. On a tree that has
# both, a call may be interrupted, and the next one takes back what was begun. Then the program is
# setuid, where root runs this: what it changes belongs to whom it belonged, and a file that its
# owner may not write stays. Prints what was called; ends with status 1 at the first fault.
# usage: tests/few_handles.sh PROGRAM
# The tags below are data: REUSE-IgnoreStart
set -euo pipefail
. "$(dirname "$0")/common.sh"
tree=$room/tree copy=$room/copy
calls=0

# Folders in each other, with a file in each
deep() {
  local k path=$1
  for ((k = 1; k <= 100; k++)); do
    path=$path/d$k
    mkdir -p "$path"
    echo "x = $k" > "$path/f.py"
  done
}
# So many folders side by side, with a file in each
wide() {
  local k
  for ((k = 1; k <= $2; k++)); do
    mkdir -p "$1/w$k"
    echo "x = $k" > "$1/w$k/f.py"
  done
}
make_deep() { deep "$1"; }
make_wide() { wide "$1" 2000; }

# Makes a call on the tree where few files may be open, and on the copy where many may.
both() {
  local name="$kind, $limit open files: $*"
  (ulimit -n "$limit" && exec "$program" --root "$tree" --no-sync -v "$@") > "$room/out" \
    2> "$room/error" || fail "$name: $(head -c 300 "$room/error")"
  "$program" --root "$copy" --no-sync "$@" > "$room/out_copy" 2> "$room/error" ||
    fail "$name, of the copy: $(< "$room/error")"
  cmp -s "$room/out" "$room/out_copy" || fail "$name: it prints something else than of the copy"
  diff -r --exclude=.reuse "$tree" "$copy" > "$room/differ" ||
    fail "$name: other files than of the copy: $(head -n 3 "$room/differ")"
  calls=$((calls + 1))
}
is_as_it_was() {
  diff -r --exclude=.reuse "$tree" "$room/before" > "$room/differ" ||
    fail "$kind, $limit open files: $1 leaves $(head -n 3 "$room/differ")"
}

step=(annotate -c Jane -y 2024 -l MIT -r .)
limits=(64)
for kind in deep wide; do
  rm -rf "$room/before"
  mkdir "$room/before"
  "make_$kind" "$room/before"
  for limit in "${limits[@]}"; do
    rm -rf "$tree" "$copy"
    cp -a "$room/before" "$tree"
    cp -a "$room/before" "$copy"
    both "${step[@]}"
    both undo
    is_as_it_was undo
    both redo
    both amend --replace-license MIT ISC -r .
    both undo
    both revert 1
    is_as_it_was revert
  done
done

# Both beside each other: a call that is interrupted loses nothing.
tree=$room/mixed
mkdir "$tree"
wide "$tree" 100
deep "$tree"
wide "$tree/z" 100
rm -rf "$room/before"
cp -a "$tree" "$room/before"
kind=both limit=64
(ulimit -n 64 && exec "$program" --root "$tree" --no-sync "${step[@]}") > "$room/out" 2>&1 ||
  is "$(tail -n 1 "$room/out")" 'reuse-undo: interrupted' 'both, 64 open files'
"$program" --root "$tree" log > "$room/out" 2>&1 || fail "both: log: $(< "$room/out")"
"$program" --root "$tree" undo > "$room/out" 2>&1 ||
  is "$(tail -n 1 "$room/out")" 'reuse-undo: nothing to undo' 'both, undo'
is_as_it_was 'a call on both'
calls=$((calls + 1))

# The program belongs to another user, and runs as he whoever calls it.
setuid() {
  local owner=61001 nobody=65534 call path
  tree=$room/owned
  chmod 755 "$room"
  mkdir -p "$tree/theirs"
  for path in a.py b.py theirs/c.py; do echo 'x = 1' > "$tree/$path"; done
  chown -R $owner "$tree"
  chown -R $nobody "$tree/b.py" "$tree/theirs"
  cp "$program" "$room/setuid"
  chown $owner "$room/setuid"
  chmod 4755 "$room/setuid"
  sha256sum "$tree/b.py" "$tree/theirs/c.py" > "$room/others"
  as_nobody() {
    setpriv --reuid=$nobody --regid=$nobody --clear-groups "$room/setuid" --root "$tree" "$@"
  }
  for call in 'annotate -l MIT a.py' undo redo 'amend --replace-license MIT ISC a.py' \
    'undo' 'revert 1'; do
    # shellcheck disable=SC2086
    as_nobody $call > "$room/out" 2> "$room/error" || fail "setuid, $call: $(< "$room/error")"
    for path in a.py .reuse .reuse/undo .reuse/undo/head.json; do
      [[ $(stat -c %u "$tree/$path") == "$owner" ]] || fail "setuid, $call: whose $path is"
    done
  done
  for path in b.py theirs/c.py; do
    is "$(as_nobody annotate -l MIT a.py "$path" 2>&1)" "reuse-undo: $path: cannot keep its owner" \
      'setuid'
  done
  ! as_nobody --allow-owner-change annotate -l MIT theirs/c.py > "$room/out" 2>&1 ||
    fail 'setuid: a folder of somebody else is written'
  sha256sum --quiet -c "$room/others" || fail "setuid: somebody else's file is changed"
  is "$(< "$tree/a.py")" 'x = 1' 'setuid, a.py'
}
told='; a setuid program is not tried, which only root makes'
if ((EUID == 0)) && command -v setpriv > /dev/null; then
  setuid
  told='; setuid, it acts as its owner'
fi
echo "$calls calls with at most ${limits[*]} open files made what others make, on trees deep and" \
  "wide$told"
