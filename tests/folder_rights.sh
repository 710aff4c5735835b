#!/usr/bin/env bash
# Runs the program, as folder.sh does, whose functions it takes, where it may not do all: which bits
# a file has afterwards, which faults are told where a folder or the root is closed, and that a tree
# which another process has locked is left alone. Ends with status 1 at the first fault.
# usage: tests/folder_rights.sh PROGRAM
# The tags below are data: REUSE-IgnoreStart
set -euo pipefail
. "$(dirname "$0")/folder.sh"

# A rewritten file keeps who may read, write and run it, whatever the mask, and loses the other
# bits. A new one has those of any new file.
bits() {
  local mask word call k wanted files=({a..k}) \
    modes=(755 755 666 600 666 440 4755 2750 1666 777 400)
  for mask in 000 022 027 077; do
    umask $mask
    stand "${files[@]}" plain
    for k in "${!files[@]}"; do chmod "${modes[k]}" "$tree/${files[k]}"; done
    puts made
    for word in changed undone redone; do
      call=("${word%ne}")
      [[ $word != changed ]] || call=("${annotate[@]}" "${files[@]}")
      tells_each $word "${files[@]}" : "${call[@]}"
      for k in "${!files[@]}"; do
        wanted=${modes[k]: -3}
        [[ $(mode "${files[k]}") == "$wanted" ]] ||
          fail "umask $mask: $word ${files[k]} has bits $(mode "${files[k]}"), not $wanted"
      done
      [[ $(mode made) == "$(mode plain)" ]] || fail "umask $mask: made has bits $(mode made)"
    done
  done
  umask 022
  # The bits of a removed file are not those of the file that is made anew at its path.
  stand in/a plain
  chmod 755 "$tree/in/a"
  tells 'changed in/a' "${annotate[@]}" in/a
  tells 'undone in/a' undo
  puts in/made
  removes in/a
  refused 'in/a: no such path' "${annotate[@]}" in/a
  puts in/a
  [[ $(mode in/a) == "$(mode plain)" && $(mode in/made) == "$(mode plain)" ]] ||
    fail "files made anew have bits $(mode in/a) and $(mode in/made)"
}

# As nobody where the caller is root, whom the system refuses nothing. The journal is root's then.
closed() {
  umask 000
  if ((EUID == 0)); then
    as=(setpriv --reuid=65534 --regid=65534 --clear-groups)
    cp "$program" "$room/whole_program"
    local program=$room/program
    printf '#!/bin/sh\nexec "%s" --trust-journal "$@"\n' "$room/whole_program" > "$program"
    chmod 755 "$room" "$room/whole_program" "$program"
  fi
  stand closed/a .reuse/undo/
  chmod 000 "$tree/closed"
  tells "reuse-undo: store fault"$'\n'"reuse-undo: note: can't list closed: $denied" \
    "${annotate[@]}" -n -r .
  lay "done" closed/a
  tells "reuse-undo: store fault"$'\n'"reuse-undo: note: can't read closed/a: $denied" undo
  lay undone closed/b
  chmod 555 "$tree/closed"
  cannot interrupted "write closed/a: $denied" "${annotate[@]}" closed/a
  tells "$row" log
  cannot_put closed/b "$denied"
  lay "done" closed/a
  cannot interrupted "remove closed/a: $denied" undo
  lay undone closed/b
  lists closed/a
  holds closed/a y
  chmod 755 "$tree/closed"
  # The root itself
  stand a .reuse/undo/
  chmod 555 "$tree"
  lists a
  cannot interrupted "write a: $denied" "${annotate[@]}" a
  tells '' log
  cannot_put b "$denied"
  removes_nothing b
  lay "done" a
  cannot interrupted "remove a: $denied" undo
  lay undone b
  lists a
  holds a y
  chmod 755 "$tree"
  rm -r "$tree/.reuse"
  chmod 555 "$tree"
  cannot 'store fault' "write .reuse/undo/000001.json: $denied" "${annotate[@]}" a
  chmod 755 "$tree"
  as=()
  umask 022
}

# While another process holds the lock on the root, a run is refused, and so is one below it, if the
# lock isn't shared. One on another root, above it too, isn't.
locked() {
  local kind
  stand a.py in/a.py
  mkdir "$outside/other"
  printf y > "$outside/other/a.py"
  ln -s ../tree "$outside/link"
  for kind in -x -s; do
    exec 9< "$tree"
    flock -n $kind 9 || fail 'the tree is in use'
    for root in "$tree" "$tree/in/.." "$outside/link"; do
      refused 'in use by another run' "${annotate[@]}" a.py
      refused 'in use by another run' log
    done
    for root in "$outside/other" "$room"; do
      tells '' log
      refused 'nothing to undo' undo
    done
    root=$tree/in
    case $kind in
      -x) refused 'in use by another run' log ;;
      -s) tells '' log ;;
    esac
    root=$outside/absent
    cannot 'store fault' 'read .reuse: No such file or directory (os error 2)' log
    exec 9<&-
    root=$tree
    tells 'changed a.py' "${annotate[@]}" a.py
    flock -n "$tree" true || fail 'a run leaves its lock'
    tells 'undone a.py' undo
  done
}

groups=(bits closed locked)
for group in "${groups[@]}"; do $group; done
tell_counts "${groups[@]}"
