#!/usr/bin/env bash
# Runs the program on folders of each kind that a tree may be: what of one is listed and in which
# order, what is read, put and removed in it, what clashes, what is kept out, and which links are
# not followed. A laid journal of one step brings a file to any path: redo puts it, undo removes it,
# and an opening settles what was begun. Ends with status 1 at the first fault. Not shown, since no
# words bring it about: a file under /proc that is too long, a file that is exchanged for another
# one within a run, a listing of the journal's own files, and a listing, put or removal in a root
# that is no folder, where each call fails at its first reading. A name that isn't UTF-8 is in
# odd_folders.sh, a full disk in full_disk.sh.
# usage: tests/folder.sh PROGRAM
# The tags below are data: REUSE-IgnoreStart
set -euo pipefail
. "$(dirname "$0")/common.sh"
tree=$room/tree
outside=$room/outside
header='# SPDX-License-Identifier: MIT\n\n'
annotate=(annotate -s python -l MIT)
foreign='a link, a device or version control stands there'
denied='Permission denied (os error 13)'
calls=0

# Makes the tree anew: a name is that of a folder where it ends in a slash, of a link where `>` and
# a target follow, and else of a file that holds a `y`.
stand() {
  local name
  rm -rf "$tree" "$outside"
  mkdir "$tree" "$outside"
  for name; do
    mkdir -p "$(dirname "$tree/${name%%>*}")"
    case $name in
      */) mkdir "$tree/$name" ;;
      *'>'*) ln -s "${name#*>}" "$tree/${name%%>*}" ;;
      *) printf y > "$tree/$name" ;;
    esac
  done
}

# All names, bits and bytes but those of the journal's folder
all_files() {
  tar -C "$room" --sort=name --mtime=@0 --exclude='tree/.reuse/undo/*' -cf - tree outside |
    sha256sum
}

# The call tells just this, and has status 1 where that is a fault. It is made with -v; of the notes
# those are compared that say what can't be done.
root=$tree
as=()
tells() {
  local wanted=$1 status=0 found=0 told
  shift
  [[ $wanted != reuse-undo:* ]] || status=1
  "${as[@]}" "$program" -v --root "$root" "$@" > "$room/told" 2>&1 || found=$?
  told=$(sed "/^reuse-undo: note: can't/!{/^reuse-undo: note: /d}" "$room/told")
  [[ $found == "$status" && $told == "$wanted" ]] || fail "$*: status $found: $(< "$room/told")"
  calls=$((calls + 1))
}

# The call is refused with this text, and where it `cannot` do this, a note says so; all files stay
# as they are.
refused() {
  local before
  before=$(all_files)
  tells "reuse-undo: $1" "${@:2}"
  [[ $(all_files) == "$before" ]] || fail "${*:2}: files are changed"
}
cannot() { refused "$1"$'\n'"reuse-undo: note: can't $2" "${@:3}"; }

# The call tells this word of each of these paths, up to a colon.
tells_each() {
  local word=$1 lines=
  shift
  while [[ $1 != : ]]; do
    lines+=$word\ $1$'\n'
    shift
  done
  tells "${lines%$'\n'}" "${@:2}"
}
lists() { tells_each 'would change' "$@" : "${annotate[@]}" -n -r .; }
holds() { printf %b "$2" | cmp -s - "$tree/$1" || fail "$1 holds $(cat "$tree/$1")"; }
absent() { [[ ! -e $tree/$1 && ! -L $tree/$1 ]] || fail "$1 is there"; }
mode() { stat -c %a "$tree/$1"; }

# Lays the journal of one step, which makes the file or drops it, as version 1.0 wrote it.
declare -A heads=(
  [done]='"done":[1],"format":1,"next":2,"pending":null,"undone":[]'
  [undone]='"done":[],"format":1,"next":2,"pending":null,"undone":[1]'
  [begun]='"done":[],"format":1,"next":2,"pending":{"entry":1,"way":"redo"},"undone":[1]'
)
lay() {
  local head=$1 path=$2 kind=${3:-make} bytes=new
  [[ $kind == make ]] || bytes=old
  mkdir -p "$tree/.reuse/undo"
  printf '{"changes":[{"kind":"%s","%s":"79","path":"%s"}],"command":"annotate","format":1,"when":1700000000}' \
    "$kind" $bytes "$path" > "$tree/.reuse/undo/000001.json"
  printf '{%s}' "${heads[$head]}" > "$tree/.reuse/undo/head.json"
}
row='1 2023-11-14 annotate 1 undone'

# A file is put at the path, or the file there is removed. Where a stopped run had begun to make a
# file that isn't there, nothing is removed.
puts() {
  lay undone "$1"
  tells "redone $1" redo
  holds "$1" y
}
removes() {
  lay "done" "$1"
  tells "undone $1" undo
  absent "$1"
}
removes_nothing() {
  local before
  lay begun "$1"
  before=$(all_files)
  tells "$row" log
  [[ $(all_files) == "$before" ]] || fail "$1: files are changed as a stopped run is set back"
}

# No file can be put at the path: the redo stops, and the next call sets back what it began.
cannot_put() {
  lay undone "$1"
  cannot interrupted "write $1: $2" redo
  tells "$row" log
}

# No step names the path, which is the journal's own.
bad_journal() {
  lay undone "$1"
  refused '.reuse/undo/000001.json: bad journal' redo
  rm "$tree/.reuse/undo/"*.json
}

# At the path nothing is read, put or removed, whatever stands there.
barred() {
  refused "$1: no such path" "${annotate[@]}" "$1"
  refused "$1: no such path" "${annotate[@]}" -n -r "$1"
  removes_nothing "$1"
  cannot_put "$1" "$foreign"
}

listing() {
  stand a/b a.py a-b a/.git/x é b c .git/HEAD .reuse/undo/new empty/ 'link>a' 'link.py>a.py'
  lists a-b a.py a/b b c é
  tells_each changed a-b a.py a/b b c é : "${annotate[@]}" -r .
  tells_each undone a-b a.py a/b b c é : undo
  # The root may be a link.
  ln -s ../tree/a "$outside/link"
  root=$outside/link
  lists b
  root=$tree
}

reads_and_writes() {
  local path
  stand
  for path in a/b c/é.py a/empty; do puts $path; done
  : > "$tree/a/empty"
  lists a/b a/empty c/é.py
  tells_each changed a/b a/empty c/é.py : "${annotate[@]}" a/b c/é.py a/empty
  holds a/b "${header}y"
  holds c/é.py "${header}y"
  holds a/empty '# SPDX-License-Identifier: MIT\n'
  tells_each undone a/b a/empty c/é.py : undo
  holds a/b y
  holds a/empty ''
  refused 'a/absent: no such path' "${annotate[@]}" a/absent
  refused 'absent/b: no such path' "${annotate[@]}" absent/b
  refused 'a: is a folder' "${annotate[@]}" a
  printf y > "$tree/a/empty"
  removes a/empty
  for path in a/empty a absent/b; do removes_nothing $path; done
  lists a/b c/é.py
  # The longest file that is read, and one byte more
  { printf %b "$header" && head -c 16777216 /dev/zero | tr '\0' '\n'; } > "$tree/long.py"
  truncate -s 16777216 "$tree/long.py"
  tells 'nothing changed' "${annotate[@]}" --skip-existing long.py
  echo >> "$tree/long.py"
  refused 'long.py: too long' "${annotate[@]}" --skip-existing long.py
}

# The system's own files seem to be empty. This one holds the name of this process: a first line
# behind which the header would stand.
longer_than_it_seems() {
  printf '#!/bin/sh' > /proc/$$/comm
  [[ $(stat -c %s /proc/$$/comm) == 0 ]] || fail '/proc/comm has a length'
  root=/proc/$$
  tells "$(printf '%s\n' 'would change comm' 'diff --git a/comm b/comm' '--- a/comm' \
    '+++ b/comm' '@@ -1,1 +1,3 @@' ' #!/bin/sh' + \
    '+# SPDX-License-Identifier: MIT')" "${annotate[@]}" -n --diff comm
  root=$tree
}

empty_tree() {
  stand
  lists
  refused 'a: no such path' "${annotate[@]}" a
  removes_nothing a
  puts a/b
  removes a/b
  lists
  [[ -d $tree/a ]] || fail 'a folder is removed'
  puts a/b
  lists a/b
}

clashes() {
  local path
  stand a/b/c empty/in/ 'linked/c>../a/b/c' .git/HEAD .reuse/undo/new f f.license/b/c
  # A step that was to make the file is not redone, and one that was to drop it is not set back.
  for path in a f.license a/b/c/d a/b/c/d/e; do
    lay undone $path
    refused "$path: moved" redo
    lay begun $path drop
    refused "$path: moved" log
    removes_nothing $path
  done
  rm "$tree/.reuse/undo/"*.json
  refused 'f.license: clash' "${annotate[@]}" --force-dot-license f
  refused 'a/b/c/d: no such path' "${annotate[@]}" a/b/c/d
  puts empty
  cannot_put linked "$foreign"
  cannot_put .git "$foreign"
  for path in .reuse .reuse/undo; do bad_journal $path; done
  lists a/b/c empty f f.license/b/c
}

kept_out() {
  local path
  stand .git/HEAD .reuse/undo/new a/.Hg/x b/.git a/.svn/x a/.jj/x a/b/.bzr/x a/_darcs/b/x \
    a/.SL/x a/.pijul/x a/b/.repo/x a/CVS/Root a/.reuse/undo/head.json c/.reuse-undo-new c/.reuse-undo-new.7
  for path in .reuse/undo/new .reuse/undo/new/x; do
    refused "$path: no such path" "${annotate[@]}" $path
    bad_journal $path
  done
  holds .reuse/undo/new y
  for path in .git/HEAD .git/refs/x .GIT a/.Hg/x a/.svn/x a/.jj/x a/b/.bzr/x a/_darcs/b/x b/.git \
    b/.git/x \
    a/.SL/x a/.pijul/x a/b/.repo/x a/CVS/Root a/.reuse/undo a/.reuse/undo/head.json \
    c/.reuse-undo-new c/.reuse-undo-new.7; do
    barred $path
  done
  printf y > "$tree/.reuse/undo/new"
  rm -r "$tree/a/_darcs" "$tree/a/.reuse"
  for path in a.py a/_darcs a/.reuse/undone a/cvs/b; do puts $path; done
  lists a.py a/.reuse/undone a/_darcs a/cvs/b
  tells_each changed a.py a/.reuse/undone a/_darcs a/cvs/b : "${annotate[@]}" -r .
}

links() {
  local call path place
  stand a 'file>../outside/a' 'to>../outside' 'dangling>none'
  mkdir "$outside/undo"
  printf y > "$outside/a"
  for path in file to to/a to/undo/b dangling dangling/a; do barred $path; done
  lists a
  # A link in the place of the journal's folder
  rm -r "$tree/.reuse"
  ln -s ../outside "$tree/.reuse"
  cannot 'store fault' "write .reuse/undo/000001.json: $foreign" "${annotate[@]}" a
  lists a
  root=$outside
  lists a
  root=$tree
  # A link that takes the place of a file, or of a folder, between two calls
  stand a.py in/b.py
  tells_each changed a.py in/b.py : "${annotate[@]}" -r .
  for call in undo redo; do
    for path in a.py in/b.py; do
      place=${path%%/*}
      mv "$tree/$place" "$outside"
      ln -s "../outside/$place" "$tree/$place"
      refused "$path: moved" $call
      rm "$tree/$place"
      mv "$outside/$place" "$tree"
    done
    tells_each ${call}ne a.py in/b.py : $call
  done
}

# What a stopped run has left where new files are written: a link, which isn't followed, a file
# whose bits are of no account, or a folder
left_over() {
  stand plain '.reuse/undo/new>../../../outside/file'
  printf x > "$outside/file"
  puts made
  tells_each changed made plain : "${annotate[@]}" -r .
  [[ $(< "$outside/file") == x ]] || fail 'a link at the new file is followed'
  absent .reuse/undo/new
  stand plain .reuse/undo/new
  chmod 400 "$tree/.reuse/undo/new"
  puts made
  [[ $(mode made) == "$(mode plain)" ]] || fail "made has bits $(mode made)"
  absent .reuse/undo/new
  mkdir "$tree/.reuse/undo/new"
  cannot interrupted 'write .reuse/undo/head.json: Is a directory (os error 21)' undo
  cannot 'store fault' 'write .reuse/undo/000002.json: Is a directory (os error 21)' \
    "${annotate[@]}" made
  holds made y
}

no_root() {
  local call reason calls_there=(log undo redo 'show 1' 'revert 1' convert-dep5
    "download --texts $outside/texts MIT" 'annotate -l MIT a.py'
    'annotate -l MIT a/b.py' 'annotate -l MIT -r .')
  stand
  mkdir "$outside/texts"
  printf y > "$outside/texts/MIT.txt"
  printf y > "$outside/file"
  while read -r root reason; do
    root=${root/#-/$outside}
    for call in "${calls_there[@]}"; do
      # shellcheck disable=SC2086
      cannot 'store fault' "read .reuse: $reason" $call
    done
  done << 'ROOTS'
-/file Not a directory (os error 20)
-/absent No such file or directory (os error 2)
ROOTS
  root=
  cannot 'store fault' 'read .reuse: the root is no folder' log
  root=$tree
}

long_names() {
  local longest
  longest=$(printf %0255d 0)
  stand
  puts "$longest"
  lists "$longest"
  removes "$longest"
  lay undone "0$longest"
  refused "0$longest: too long" redo
  # A file that can stand there, but not its neighbour: the call is not begun.
  rm -r "$tree/.reuse"
  printf y > "$tree/$longest"
  refused "$longest: too long" "${annotate[@]}" --force-dot-license "$longest"
  holds "$longest" y
  [[ ! -e $tree/.reuse ]] || fail 'a name that is too long: the journal is made'
}

# Says what was shown.
tell_counts() {
  echo "$calls calls on folders of $# kinds list, read, put, remove and refuse as stated"
}

# folder_rights.sh reads this file for its functions.
[[ ${BASH_SOURCE[0]} == "$0" ]] || return 0
groups=(listing reads_and_writes longer_than_it_seems empty_tree clashes kept_out links left_over
  no_root long_names)
for group in "${groups[@]}"; do $group; done
tell_counts "${groups[@]}"
