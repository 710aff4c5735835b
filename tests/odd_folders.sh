#!/usr/bin/env bash
# Runs the program on odd folders: an empty one, names with spaces, letters of other scripts and
# line ends, a name that isn't UTF-8, links that lead out, devices and pipes, a folder that can't be
# written (as nobody where the caller is root), a folder in the way of a file, a mount (where one
# may be made), and files of some bits. Ends with status 1 at the first fault.
# usage: tests/odd_folders.sh PROGRAM
# The tags below are data: REUSE-IgnoreStart
set -euo pipefail
. "$(dirname "$0")/common.sh"
wants strace strace
tree=$room/tree
annotate=(annotate -l MIT -r .)
header='# SPDX-License-Identifier: MIT'

# Empties the tree.
anew() {
  rm -rf "$tree"
  mkdir "$tree"
}

# The call prints just this and ends with this status; a second try as nobody needs `as`.
as=()
tells() {
  local status=$1 text=$2 found=0
  shift 2
  "${as[@]}" "$program" --root "$tree" "$@" > "$room/out" 2>&1 || found=$?
  [[ $found == "$status" ]] || fail "$*: status $found, not $status: $(cat "$room/out")"
  printf %s "$text" | cmp -s - "$room/out" || fail "$*: it tells $(cat "$room/out")"
}

# From now on the calls are made as nobody, if the caller is root.
as_nobody() {
  ((EUID == 0)) || return 0
  as=(setpriv --reuid=65534 --regid=65534 --clear-groups)
  [[ -e $room/program ]] || cp "$program" "$room/program"
  program=$room/program
  chown -R 65534:65534 "$tree"
  chmod 755 "$room" "$program"
}

empty() {
  anew
  tells 0 $'nothing changed\n' "${annotate[@]}"
  tells 0 '' log
  tells 1 $'reuse-undo: .reuse/dep5: absent\n' convert-dep5
  [[ -z $(ls -A "$tree") ]] || fail 'an empty folder gets files'
}

names() {
  local name before rows
  anew
  mkdir -p "$tree/a b" "$tree/größe"
  for name in 'a b/c d.py' 'größe/日本語.py' $'a b/line\nend.py' '-r.py' "quote'\".py" \
    'back\slash.py'; do
    echo x > "$tree/$name"
  done
  before=$(cd "$tree" && tar --sort=name --mtime=@0 -cf - . | sha256sum)
  rows=$'changed -r.py\nchanged a b/c d.py\nchanged a b/line\nend.py\nchanged back\\slash.py\n'
  rows+=$'changed größe/日本語.py\nchanged quote\'".py\n'
  tells 0 "$rows" "${annotate[@]}"
  [[ $(head -n 1 "$tree/größe/日本語.py") == "$header" ]] || fail 'größe/日本語.py is not annotated'
  tells 0 "${rows//changed/undone}" undo
  [[ $(cd "$tree" &&
    tar --sort=name --mtime=@0 --exclude=./.reuse -cf - . | sha256sum) == "$before" ]] ||
    fail 'the names are not as before'
  tells 0 $'changed größe/日本語.py\n' annotate -l MIT größe/日本語.py
}

# A listing fails; a call that needs none works, and what is no part of the tree may have any name.
not_utf8() {
  anew
  echo x > "$tree/a.py"
  mkdir -p "$tree/sub/.hg"
  echo x > "$tree/sub/.hg/"$'\377.py'
  tells 0 $'changed a.py\n' "${annotate[@]}"
  echo x > "$tree/"$'\377.py'
  tells 1 $'reuse-undo: store fault\n' annotate -l ISC -r .
  tells 0 "1 $(date -u +%F) annotate 1 done"$'\n' log
}

links() {
  anew
  rm -rf "$room/out_of_tree"
  mkdir "$room/out_of_tree"
  echo x > "$room/out_of_tree/a.py"
  echo x > "$tree/own.py"
  ln -s ../out_of_tree/a.py "$tree/file.py"
  ln -s ../out_of_tree "$tree/folder"
  ln -s /nowhere "$tree/dangling.py"
  mkfifo "$tree/pipe.py"
  tells 0 $'changed own.py\n' "${annotate[@]}"
  for path in file.py folder folder/a.py dangling.py pipe.py; do
    tells 1 "reuse-undo: $path: no such path"$'\n' annotate -l MIT -r "$path"
  done
  printf '\211' > "$tree/p.png"
  ln -s ../out_of_tree/new "$tree/p.png.license"
  tells 1 $'reuse-undo: interrupted\n' annotate -l MIT p.png
  tells \
    0 $'undone own.py\nreuse-undo: note: step 2, which a stopped run had begun, was set back (0 files)\n' undo
  [[ $(ls "$room/out_of_tree") == a.py && $(< "$room/out_of_tree/a.py") == x ]] ||
    fail 'a link was followed'
  # A journal behind a link isn't written.
  rm -r "$tree/.reuse"
  ln -s ../out_of_tree "$tree/.reuse"
  tells 1 $'reuse-undo: store fault\n' annotate -l MIT own.py
  [[ $(ls "$room/out_of_tree") == a.py && $(< "$tree/own.py") == x ]] ||
    fail 'the journal is written through a link'
  # The root itself may be a link.
  rm "$tree/.reuse"
  ln -s tree "$room/link"
  "$program" --root "$room/link" annotate -l MIT own.py > "$room/out" || fail 'a link is no root'
}

bits() {
  local mode
  anew
  for mode in 444 600 755; do
    echo x > "$tree/$mode.py"
    chmod $mode "$tree/$mode.py"
  done
  tells 0 $'changed 444.py\nchanged 600.py\nchanged 755.py\n' "${annotate[@]}"
  for mode in 444 600 755; do
    [[ $(stat -c %a "$tree/$mode.py") == $mode ]] || fail "$mode.py has other bits"
  done
  tells 0 $'undone 444.py\nundone 600.py\nundone 755.py\n' undo
  for mode in 444 600 755; do
    [[ $(stat -c %a "$tree/$mode.py") == $mode ]] || fail "$mode.py has other bits after undo"
  done
}

read_only() {
  local before
  anew
  mkdir "$tree/closed" "$tree/.reuse"
  echo x > "$tree/closed/a.py"
  echo x > "$tree/b.py"
  as_nobody
  before=$(state_of "$tree")
  chmod 555 "$tree" "$tree/.reuse"
  tells 1 $'reuse-undo: store fault\n' annotate -l MIT -r .
  chmod 755 "$tree" "$tree/.reuse"
  chmod 555 "$tree/closed"
  tells 1 $'reuse-undo: interrupted\n' annotate -l MIT -r .
  chmod 755 "$tree/closed"
  tells 0 $'reuse-undo: note: step 1, which a stopped run had begun, was set back (1 file)\n' log
  [[ $(state_of "$tree") == "$before" ]] ||
    fail 'a folder that can not be written: files are changed'
  chmod 000 "$tree/closed"
  tells 1 $'reuse-undo: store fault\n' annotate -l MIT -r .
  # Paths that are given need no listing, and a file whose neighbour is there needn't be readable.
  tells 0 $'changed b.py\n' annotate -l MIT b.py
  tells 0 $'undone b.py\n' undo
  echo x > "$tree/p.png"
  echo 'SPDX-License-Identifier: MIT' > "$tree/p.png.license"
  ((EUID != 0)) || chown 65534:65534 "$tree/p.png" "$tree/p.png.license"
  chmod 000 "$tree/p.png"
  tells 0 $'changed p.png.license\n' annotate -l ISC p.png
  tells 0 $'undone p.png.license\n' undo
  rm -r "$tree/p.png" "$tree/p.png.license" "$tree/.reuse/undo"
  chmod 755 "$tree/closed"
  [[ $(state_of "$tree") == "$before" ]] || fail 'a folder that can not be read: files are changed'
  mkdir -m 000 "$tree/.svn"
  tells 0 $'changed b.py\nchanged closed/a.py\n' annotate -l MIT -r .
  tells 0 $'undone b.py\nundone closed/a.py\n' undo
  as=()
}

# A folder without files gives way to the file that is made there. One that holds a link stays: the
# call stops, and the next one sets back what it began.
in_the_way() {
  local before rows
  anew
  mkdir -p "$tree/p.png.license/empty" "$tree/.reuse"
  printf '\211' > "$tree/p.png"
  echo x > "$tree/a.py"
  tells 0 $'changed a.py\nchanged p.png.license\n' annotate -l MIT -r .
  tells 0 $'undone a.py\nundone p.png.license\n' undo
  mkdir "$tree/p.png.license"
  ln -s nowhere "$tree/p.png.license/link"
  before=$(state_of "$tree")
  tells 1 $'reuse-undo: interrupted\n' annotate -l MIT -r .
  rows="1 $(date -u +%F) annotate 2 undone"$'\n'
  rows+=$'reuse-undo: note: step 2, which a stopped run had begun, was set back (1 file)\n'
  tells 0 "$rows" log
  [[ $(state_of "$tree") == "$before" ]] || fail 'a folder in the way: files are changed'
}

# Below a mount the new file is written beside the one that it is to be, under a name that has the
# number of the journal's folder. What a killed run has left of it goes, and no file of the user's.
mounted() {
  local script='mount -t tmpfs none "$1/mounted" && echo x > "$1/mounted/a.py" &&
    chmod 755 "$1/mounted/a.py" && echo mine > "$1/mounted/.reuse-undo-new" &&
    echo mine > "$1/mounted/.reuse-undo-new.0" && "$2" --root "$1" annotate -l MIT -r . &&
    head -n 1 "$1/mounted/a.py" && stat -c %a "$1/mounted/a.py" &&
    echo left > "$1/mounted/.reuse-undo-new.$(stat -c %i "$1/.reuse/undo")" &&
    "$2" undo --root "$1" && cat "$1/mounted/a.py" && ls -A "$1/mounted" &&
    cat "$1/mounted/.reuse-undo-new" "$1/mounted/.reuse-undo-new.0"'
  anew
  mkdir "$tree/mounted"
  if ! unshare -m mount -t tmpfs none "$tree/mounted" 2> "$room/error"; then
    echo 'mounted: not tried, since no mount can be made'
    return
  fi
  unshare -m bash -c "$script" bash "$tree" "$program" > "$room/out" 2>&1 ||
    fail "below a mount: $(cat "$room/out")"
  printf '%s\n' 'changed mounted/a.py' "$header" 755 'undone mounted/a.py' x .reuse-undo-new \
    .reuse-undo-new.0 a.py mine mine |
    cmp -s - "$room/out" || fail "below a mount: $(cat "$room/out")"
}

# A run is killed at its renaming K, in a mount. Then a call rolls it back. Says whether a new file
# was left below the mount, and fails unless that file alone went; or unless nothing went, if a
# command is given that is made of the file before.
killed_below_mount() {
  local tree=$1 program=$2 k=$3 call=$4 command=$5 calls=rename,renameat,renameat2,link,linkat
  local left stood was
  shift 5
  mount -t tmpfs none "$tree/mounted" && cd "$tree/mounted" || return
  echo x > a.py
  echo mine | tee .reuse-undo-new .reuse-undo-new.0 > .reuse-undo-new.18446744073709551615
  (($# == 0)) || chown -R 65534:65534 "$tree"
  "$@" strace -f -qq -o /dev/null -e trace=$calls -e inject=$calls:signal=KILL:when="$k" \
    "$program" --root "$tree" annotate -l MIT -r . > /dev/null 2>&1
  (($? == 137)) || return
  left=.reuse-undo-new.$(stat -c %i "$tree/.reuse/undo")
  was=$(< a.py)
  [[ ! -e $left ]] || echo left
  [[ -z $command ]] || { "$@" bash -c "$command" bash "$left" && left=nothing; }
  stood=$(stat -c '%n %i %s %y %z' .r* a.py | grep -v "^$left ")
  # shellcheck disable=SC2086
  "$@" "$program" --root "$tree" $call > /dev/null 2>&1 || return
  [[ $was == x ]] || stood=$(grep -v '^a.py ' <<< "$stood"; stat -c '%n %i %s %y %z' a.py)
  [[ $(< a.py) == x && $(stat -c '%n %i %s %y %z' .r* a.py) == "$stood" ]] || { ls -la; return 1; }
  [[ -n $command ]] ||
    { "$@" "$program" --root "$tree" annotate -l MIT -r . && "$@" "$program" undo --root "$tree"; }
}

# A run is killed at each of its renamings, as root and as nobody. What it leaves below a mount goes
# with the rollback, which writes nothing else there if the file has its old bytes still. Files of
# the user's and of another journal stay, and so do a link, a folder and a pipe of the very name, and
# what can't be removed.
mounted_and_killed() {
  local k call command lefts=0
  anew
  mkdir "$tree/mounted"
  if ! unshare -m mount -t tmpfs none "$tree/mounted" 2> "$room/error"; then
    echo 'mounted_and_killed: not tried, since no mount can be made'
    return
  fi
  for call in log recover 'recover --skip-moved' 'log --no-sync'; do
    for k in 1 2 3 4 5; do kill_below_mount "$k" "$call" ''; done
  done
  for command in 'ln -sf a.py' 'rm "$1"; mkdir' 'rm "$1"; mkfifo'; do
    kill_below_mount 4 log "$command \"\$1\""
  done
  as_nobody
  for k in 1 2 3 4 5; do kill_below_mount "$k" log ''; done
  kill_below_mount 4 log 'chmod 555 .'
  as=()
  ((lefts == 9)) || fail "killed below a mount: a file was left $lefts times"
}

# The same in a mount of its own: counts in `lefts` whether a file was left.
kill_below_mount() {
  anew
  mkdir "$tree/mounted"
  unshare -m bash -c "$(declare -f killed_below_mount); killed_below_mount \"\$@\"" bash \
    "$tree" "$program" "$@" "${as[@]}" > "$room/out" 2> "$room/error" ||
    fail "killed below a mount at $*: $(cat "$room/out" "$room/error")"
  ! grep -qx left "$room/out" || lefts=$((lefts + 1))
  [[ -n $3 ]] || printf '%s\n' 'changed mounted/a.py' 'undone mounted/a.py' |
    cmp -s - <(grep -vx left "$room/out") || fail "killed below a mount at $*: $(cat "$room/out")"
}

# Where the system doesn't show open folders, they are sought by their paths, and a note tells. Nor
# does it show the process' user: each file and each journal counts as another user's.
without_proc() {
  local script='mount -t tmpfs none /proc || exit
    "$2" --root "$1" annotate -l MIT -r .
    "$2" -v --root "$1" annotate --allow-owner-change -l MIT -r .
    "$2" undo --root "$1"
    "$2" undo --root "$1" --trust-journal
    "$2" undo --root "$1" --trust-journal --allow-owner-change'
  anew
  mkdir "$tree/in"
  echo x > "$tree/in/a.py"
  if ! unshare -m mount -t tmpfs none /proc 2> "$room/error"; then
    echo 'without_proc: not tried, since no mount can be made'
    return
  fi
  unshare -m bash -c "$script" bash "$tree" "$program" > "$room/out" 2>&1 ||
    fail "without /proc: $(cat "$room/out")"
  printf '%s\n' 'reuse-undo: in/a.py: cannot keep its owner' 'changed in/a.py' \
    'reuse-undo: note: 1 file changed; reuse-undo undo takes that back' \
    'reuse-undo: note: there is no /proc: no other program may move folders or make links here meanwhile' \
    'reuse-undo: journal of another user' 'reuse-undo: in/a.py: cannot keep its owner' \
    'undone in/a.py' |
    cmp -s - "$room/out" || fail "without /proc: $(cat "$room/out")"
}

# The root may stand anywhere.
roots() {
  anew
  echo x > "$tree/a.py"
  for call in "--root $tree annotate -l MIT a.py" "undo --root $tree" \
    "annotate --root $tree -l MIT a.py" "annotate -l MIT a.py --root=$tree" "undo --root $tree"; do
    # shellcheck disable=SC2086
    (cd / && "$program" $call) > "$room/out" 2>&1 || fail "$call: $(cat "$room/out")"
  done
  tells 0 $'changed a.py\n' annotate -l MIT a.py
}

for group in empty names not_utf8 links bits in_the_way mounted mounted_and_killed without_proc \
  roots read_only; do
  $group
  echo "$group: as stated"
done
