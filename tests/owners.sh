#!/usr/bin/env bash
# Runs the program as root and as two users of one group, and looks at owners, groups and bits of
# files and folders before and after annotate, download, undo, redo, revert and a rollback: kept, or
# refused before anything is changed. A journal of another user isn't opened. Of access control
# lists it shows what SECURITY.md says. Root alone can run it. Ends with status 1 at the first
# fault.
# usage: tests/owners.sh PROGRAM
# The tags below are data: REUSE-IgnoreStart
set -euo pipefail
. "$(dirname "$0")/common.sh"
((EUID == 0)) || skip 'only root can make files of other users'
wants setpriv util-linux
umask 022
tree=$room/tree
one=61001 two=61002 team=61000
chmod 755 "$room"
cp "$program" "$room/program"
program=$room/program
chmod 755 "$program"
mkdir "$room/texts"
printf 'MIT License\n' > "$room/texts/MIT.txt"
checks=0
jane=(-c 'Jane Doe' -y 2024 -l MIT)

# A call as root, or as a user who is in his own group and in the team's
run() {
  local user=$1
  shift
  if [[ $user == root ]]; then
    "$program" --root "$tree" "$@"
  else
    setpriv --reuid="$user" --regid="$user" --groups="$user,$team" "$program" --root "$tree" "$@"
  fi
}

# The call succeeds, and standard error is told these lines.
does() {
  local wanted=$1 found=0
  shift
  run "$@" > "$room/out" 2> "$room/error" || found=$?
  [[ $found == 0 && $(< "$room/error") == "$wanted" ]] ||
    fail "$*: status $found: $(cat "$room/error")"
  checks=$((checks + 1))
}

# The call is refused so, and changes no byte, owner or name.
refused() {
  local wanted=$1 found=0 before
  shift
  before=$(everything)
  run "$@" > "$room/out" 2> "$room/error" || found=$?
  [[ $found == 1 && ! -s $room/out && $(< "$room/error") == "reuse-undo: $wanted" ]] ||
    fail "$*: status $found: $(cat "$room/error" "$room/out")"
  [[ $(everything) == "$before" ]] || fail "$* is refused and changes something"
  checks=$((checks + 1))
}

# All names with their owners, groups, bits and bytes
everything() { tar -C "$tree" --numeric-owner --sort=name --mtime=@0 -cf - . | sha256sum; }

# Owner, group and bits of a path
of() { stat -c '%u:%g %a' "$tree/$1"; }
has() {
  [[ $(of "$1") == "$2" ]] || fail "$3: $1 is $(of "$1"), not $2"
  checks=$((checks + 1))
}

# The tree anew, of this owner, with a file for each `PATH OWNER BITS`
stand() {
  local path owner bits
  rm -rf "$tree"
  mkdir "$tree"
  chown "$1" "$tree"
  shift
  while (($#)); do
    read -r path owner bits <<< "$1"
    mkdir -p "$(dirname "$tree/$path")"
    echo 'x = 1' > "$tree/$path"
    chown "$owner" "$tree/$path"
    chmod "$bits" "$tree/$path"
    shift
  done
}

# Root in a user's tree: the files stay the user's, and what is made is his.
as_root() {
  local call
  stand $one:$team "a.py $one:$team 600" "b.py $two:$one 640" "c.py 0:0 644"
  mkdir -m 755 "$tree/sub"
  printf '\0' > "$tree/sub/p.png"
  chown -R $two:$two "$tree/sub"
  does '' root annotate "${jane[@]}" -r .
  for call in annotate undo redo revert; do
    case $call in
      undo) does '' root --trust-journal undo ;;
      redo) does '' root --trust-journal redo ;;
      revert) does '' root --trust-journal revert 1 ;;
    esac
    has a.py "$one:$team 600" $call
    has b.py "$two:$one 640" $call
    has c.py '0:0 644' $call
    has sub/p.png "$two:$two 644" $call
    [[ $call == undo || $call == revert ]] || has sub/p.png.license "$two:$two 644" $call
    for path in .reuse .reuse/undo; do has $path "$one:$team 755" $call; done
    for path in .reuse/undo/head.json .reuse/undo/000001.json; do
      has $path "$one:$team 644" $call
    done
  done
  does '' root --trust-journal download --texts "$room/texts" MIT
  has LICENSES "$one:$team 755" download
  has LICENSES/MIT.txt "$one:$team 644" download
  # The user goes on with what root has made for him.
  stand $one:$team "a.py $one:$team 600"
  does '' root annotate "${jane[@]}" a.py
  does '' $one undo
  has a.py "$one:$team 600" 'undo by the owner'
  does '' $one redo
}

# A folder that passes its group on
setgid() {
  stand $one:$one
  chmod 2775 "$tree"
  chgrp $team "$tree"
  printf '\0' > "$tree/p.png"
  does '' $one annotate "${jane[@]}" p.png
  has p.png.license "$one:$team 644" setgid
  has .reuse/undo "$one:$team 2755" setgid
  does '' $one undo
  rm -r "$tree/.reuse"
  does '' root annotate "${jane[@]}" p.png
  has p.png.license "$one:$team 644" 'setgid, root'
}

# Two users in one group's tree
in_team() {
  local note='reuse-undo: note: 2 files could not keep owner or group'
  stand $one:$team "a.py $one:$team 664" "b.py $one:$team 775" "c.py $two:$team 600"
  chmod 2775 "$tree"
  run $two -v annotate "${jane[@]}" -r . > "$room/out" 2> "$room/error" ||
    fail "team: $(cat "$room/error")"
  grep -qxF "$note" "$room/error" || fail "team: no note: $(cat "$room/error")"
  has a.py "$two:$team 664" team
  has b.py "$two:$team 775" team
  has c.py "$two:$team 600" team
  does '' $two undo
  has a.py "$two:$team 664" team
  # The owner would lose access.
  for bits in 644 600 660 640 604 755; do
    stand $one:$team "a.py $one:$team 664" "z.py $one:$team $bits"
    chmod 2775 "$tree"
    case $bits in
      660) does '' $two annotate "${jane[@]}" z.py && has z.py "$two:$team 660" $bits ;;
      600 | 604) refused 'store fault' $two annotate "${jane[@]}" z.py ;;
      *)
        refused 'z.py: cannot keep its owner' $two annotate "${jane[@]}" z.py
        refused 'z.py: cannot keep its owner' $two annotate "${jane[@]}" -r .
        does '' $two annotate "${jane[@]}" a.py
        refused 'y.py: no such path' $two annotate "${jane[@]}" z.py y.py
        does '' $two annotate --allow-owner-change "${jane[@]}" z.py
        has z.py "$two:$team $bits" "$bits, allowed"
        ;;
    esac
  done
  # Unchanged files are of no account.
  stand $two:$team "a.py $one:$team 644" "b.py $two:$team 644"
  run $one --allow-owner-change annotate "${jane[@]}" a.py 2> "$room/error" > "$room/out" &&
    fail 'a folder that others may not write'
  chown $one "$tree/a.py"
  does '' $two annotate "${jane[@]}" b.py
  does '' $two undo
  # Of a dry run nothing is refused for that.
  does '' $two annotate -n "${jane[@]}" a.py
}

# A program whose name the system cuts within a letter: whose process it is is known all the same.
cut_name() {
  local program=$room/reuse-undo--prüf
  cp "$room/program" "$program"
  stand $one:$one "a.py $one:$one 644"
  does '' $one annotate "${jane[@]}" a.py
  does '' $one undo
  rm "$program"
}

# A group that the owner isn't in
other_group() {
  stand $one:$one "a.py $one:0 644" "b.py $one:0 640" "c.py $one:0 664" "d.py $one:0 604"
  for file in b c d; do
    refused "$file.py: cannot keep its owner" $one annotate "${jane[@]}" $file.py
  done
  does '' $one annotate "${jane[@]}" a.py
  has a.py "$one:$one 644" group
  # Undo and redo are looked at in the same way.
  chown $one:0 "$tree/a.py"
  chmod 640 "$tree/a.py"
  refused 'a.py: cannot keep its owner' $one undo
  refused 'a.py: cannot keep its owner' $one revert 1
  does '' $one --allow-owner-change undo
  has a.py "$one:$one 640" group
  chown $one:0 "$tree/a.py"
  refused 'a.py: cannot keep its owner' $one redo
  does '' root annotate --trust-journal "${jane[@]}" b.py
  has b.py "$one:0 640" 'group, root'
}

# A run that is stopped, and set back by the next call: told always, with the number of files.
rollback() {
  local note='reuse-undo: note: step 1, which a stopped run had begun, was set back (1 file)'
  stand $one:$team "a.py $one:$team 640" "b.py $two:$one 600"
  head -c 100000 /dev/zero | tr '\0' x >> "$tree/b.py"
  (trap '' XFSZ && ulimit -f 64 && exec "$program" --root "$tree" annotate "${jane[@]}" -r .) \
    > "$room/out" 2>&1 && fail 'no run is stopped'
  is_pending "$tree" || fail 'no step is pending'
  has a.py "$one:$team 640" stopped
  refused 'journal of another user' root log
  does "$note" root --trust-journal log
  has a.py "$one:$team 640" 'set back'
  has b.py "$two:$one 600" 'set back'
  ! grep -q SPDX "$tree/a.py" || fail 'a.py is not set back'
}

# Whose the folders of the journal and the head are
journals() {
  local path call
  for path in .reuse .reuse/undo .reuse/undo/head.json; do
    stand $one:$team "a.py $one:$team 664"
    does '' $one annotate "${jane[@]}" a.py
    chmod -R go+rX "$tree/.reuse"
    chown $two "$tree/$path"
    for call in log undo redo 'show 1' 'revert 1' recover 'undo -n' 'annotate -l MIT a.py' \
      convert-dep5 "download --texts $room/texts MIT"; do
      for user in $one root; do
        # shellcheck disable=SC2086
        refused 'journal of another user' $user $call
      done
    done
    does '' root --trust-journal log
    does '' root --trust-journal undo
  done
  # A head that isn't read: it would have its reader write.
  stand $one:$team "a.py $one:$team 664"
  does '' $one annotate "${jane[@]}" a.py
  sed -i 's/"done":/broken/' "$tree/.reuse/undo/head.json"
  chown $two "$tree/.reuse/undo/head.json"
  chmod 644 "$tree/.reuse/undo/head.json"
  refused 'journal of another user' $one log
  refused '.reuse/undo/head.json: bad journal' $one --trust-journal log
  # Help and wrong words open no journal.
  run $one --help > "$room/out" || fail 'help is refused'
}

links() {
  stand $one:$team "a.py $one:$team 644"
  ln "$tree/a.py" "$tree/link"
  run $one -v annotate "${jane[@]}" a.py > "$room/out" 2> "$room/error" ||
    fail "links: $(cat "$room/error")"
  grep -qxF 'reuse-undo: note: 1 file has further names (hard links), which keep the old bytes' \
    "$room/error" ||
    fail "links: $(cat "$room/error")"
  [[ $(< "$tree/link") == 'x = 1' ]] || fail 'the other name has other bytes'
}

# What becomes of access control lists: a file that is written anew has none.
lists() {
  command -v setfacl > /dev/null || {
    echo 'access control lists: not looked at, since setfacl isn'"'"'t there (apt-get install acl)'
    return 0
  }
  stand $one:$team "a.py $one:$team 640"
  setfacl -m "u:$two:r" "$tree/a.py" 2> "$room/error" || {
    echo "no access control lists on this file system: $(cat "$room/error")"
    return 0
  }
  does '' $one annotate "${jane[@]}" a.py
  has a.py "$one:$team 640" lists
  ! getfacl -cn "$tree/a.py" 2> "$room/error" | grep -q "^user:$two" ||
    fail 'SECURITY.md says that a list is lost'
}

for group in as_root setgid in_team cut_name other_group rollback journals links lists; do $group; done
echo "$checks looks at owners, groups and bits, of root and of two users"
