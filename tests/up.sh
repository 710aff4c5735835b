#!/usr/bin/env bash
# Calls from folders of a tree with --up: PATHs, lists of files and parts `..` start at the working
# folder, the root is the nearest one with .reuse or .git. Each call, and its dry run, makes of the
# tree what the one with --root and whole paths makes. Run as root, it calls as nobody too, also
# below folders that nobody may not list or search. Ends with status 1 at the first fault.
# usage: tests/up.sh PROGRAM
set -euo pipefail
. "$(dirname "$0")/common.sh"
tree=$room/tree

# A tree with a folder of git at its root, and a tree of its own in a folder
tree_of() {
  files a.py 'a = 1\n' src/b.py 'b = 1\n' src/deep/c.py 'c = 1\n' 'src/odd name/d.py' 'd = 1\n' \
    vendor/lib/e.py 'e = 1\n'
  mkdir "$tree/.git" "$tree/vendor/.reuse"
}

# From a folder of the tree the call is that of the words behind `:` with the root and whole paths:
# the same lines, status and files.
same() {
  local folder=$1 words=() status=0 wanted=0
  shift
  while [[ $1 != : ]]; do
    words+=("$1")
    shift
  done
  shift
  tree_of
  (cd "$tree/$folder" && "$program" --up "${words[@]}") > "$room/told" 2>&1 || status=$?
  rm -rf "$room/made"
  mv "$tree" "$room/made"
  tree_of
  "$program" --root "$tree" "$@" > "$room/wanted" 2>&1 || wanted=$?
  diff "$room/wanted" "$room/told" || fail "in $folder: ${words[*]}"
  [[ $status == "$wanted" ]] || fail "in $folder: ${words[*]}: status $status"
  diff -r -x head.json -x '*.json' "$room/made" "$tree" || fail "in $folder: ${words[*]}: the files"
}

# From a folder the call is refused with this text and status 2, and changes nothing.
refused() {
  local folder=$1 text=$2 status=0
  shift 2
  tree_of
  (cd "$tree/$folder" && "$program" --up "$@") > "$room/told" 2>&1 || status=$?
  [[ $status == 2 && $(head -n 1 "$room/told") == *"$text"* ]] ||
    fail "in $folder: $*: status $status, $(cat "$room/told")"
  [[ ! -e $tree/.reuse ]] || fail "in $folder: $*: made .reuse"
}

same src annotate -l MIT b.py : annotate -l MIT src/b.py
same src annotate -l MIT -r . : annotate -l MIT -r src
same src annotate -l MIT -r deep/ ../a.py : annotate -l MIT -r src/deep a.py
same src/deep annotate -l MIT -r ../.. : annotate -l MIT -r .
same src/deep annotate -l MIT ./../b.py c.py : annotate -l MIT src/b.py src/deep/c.py
same src/deep annotate -l MIT '../odd name/d.py' : annotate -l MIT 'src/odd name/d.py'
same . annotate -l MIT a.py src/../src/b.py : annotate -l MIT a.py src/b.py
same src annotate -l MIT -r . --exclude 'src/deep/*' : annotate -l MIT -r src --exclude 'src/deep/*'
same src annotate -l MIT none.py : annotate -l MIT src/none.py
same src annotate -n -l MIT b.py : annotate -n -l MIT src/b.py
same src log : log
printf '%s\n' b.py ../a.py ../../x.py > "$room/list"
printf '%s\n' src/b.py a.py > "$room/whole"
same src annotate -l MIT -r ../. --files-from "$room/list" : \
  annotate -l MIT -r . --files-from "$room/whole"
refused src 'bad path: ../../x' annotate -l MIT ../../x
refused src 'bad path: /a.py' annotate -l MIT /a.py
refused src 'bad path: deep//c.py' annotate -l MIT deep//c.py
refused . 'bad path: ..' annotate -l MIT -r ..
same src/deep annotate -n -l MIT -r ../.. : annotate -n -l MIT -r .
same src amend -n --replace-license MIT ISC -r . : amend -n --replace-license MIT ISC -r src
refused src "cannot be used with" --root . annotate -l MIT b.py

# The nearest root counts, and what was done is undone from any folder.
tree_of
(cd "$tree/vendor/lib" && "$program" --up annotate -l MIT e.py) > "$room/told"
[[ $(cat "$room/told") == 'changed lib/e.py' && -d $tree/vendor/.reuse/undo && ! -e $tree/.reuse ]] ||
  fail "the nearest root: $(cat "$room/told")"
(cd "$tree/vendor/lib" && "$program" undo --up) > "$room/told"
[[ $(cat "$room/told") == 'undone lib/e.py' && $(cat "$tree/vendor/lib/e.py") == 'e = 1' ]] ||
  fail "undo: $(cat "$room/told")"

# Texts of licences lie where the working folder says.
tree_of
mkdir "$tree/src/texts"
echo 'the text' > "$tree/src/texts/MIT.txt"
(cd "$tree/src" && "$program" --up download --texts texts MIT) > "$room/told"
[[ $(cat "$tree/LICENSES/MIT.txt") == 'the text' ]] || fail "download: $(cat "$room/told")"

# A file .git marks a root, as in a work tree of git; a folder without a root above is no tree.
tree_of
rmdir "$tree/.git"
echo 'gitdir: elsewhere' > "$tree/.git"
(cd "$tree/src" && "$program" --up annotate -l MIT b.py) > "$room/told" || fail 'a file .git'
if [[ ! -e $(dirname "$room")/.git && ! -e $(dirname "$room")/.reuse && ! -e /.git && ! -e /.reuse ]]; then
  mkdir "$room/bare"
  status=0
  (cd "$room/bare" && "$program" --up log) > "$room/told" 2>&1 || status=$?
  [[ $status == 2 && $(cat "$room/told") == 'reuse-undo: no folder from here upwards has .reuse or .git' ]] ||
    fail "without a tree: status $status, $(cat "$room/told")"
fi
# As nobody, below a folder that can't be listed, and below one that can't be searched either
if ((EUID == 0)); then
  as_nobody() { (cd "$tree/src" && setpriv --reuid=65534 --regid=65534 --clear-groups "$room/up" "$@"); }
  tree_of
  cp "$program" "$room/up"
  chmod 755 "$room" "$room/up"
  chown -R 65534:65534 "$tree"
  chown 0:0 "$room"
  chmod 711 "$room"
  [[ $(as_nobody --up annotate -n -l MIT b.py) == 'would change src/b.py' ]] || fail 'a dry run as nobody'
  [[ $(as_nobody --up annotate -l MIT b.py) == 'changed src/b.py' ]] || fail 'a call as nobody'
  [[ $(as_nobody undo --up) == 'undone src/b.py' && $(cat "$tree/src/b.py") == 'b = 1' ]] ||
    fail 'an undo as nobody'
  mkdir "$room/closed"
  mv "$tree" "$room/closed"
  tree=$room/closed/tree
  chmod 700 "$room/closed"
  status=0
  (cd "$tree/src" && setpriv --reuid=65534 --regid=65534 --clear-groups "$room/up" --up log) \
    > "$room/told" 2>&1 || status=$?
  [[ $status == 2 && $(cat "$room/told") == 'reuse-undo: no folder from here upwards has .reuse or .git' ]] ||
    fail "below a closed folder: status $status, $(cat "$room/told")"
fi
echo 'up: ok'
