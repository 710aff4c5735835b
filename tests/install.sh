#!/usr/bin/env bash
# Tries install.sh with an `rt` that proves nothing and returns at once: twenty runs after each
# other, in which crates are proved side by side; what the installed program says about its proof;
# a proof that fails; a DESTDIR; and that --uninstall leaves all as it was before. Without the kit
# it says what to do. Ends with status 1 at the first fault.
# usage: tests/install.sh
set -euo pipefail
top=$(realpath "$(dirname "$0")/..")
room=$(mktemp -d "/dev/shm/$(basename "$0" .sh).XXXXXX")
trap 'rm -rf "$room"' EXIT
export TMPDIR=$room
copy=$room/copy
runs=20

fail() {
  trap - EXIT
  echo "fault: $1; kept in $room" >&2
  exit 1
}

# The line of a program that is compiled, in install.sh and in the program
nothing=$(sed -nE "s/^.* nothing='(.*)' .*/\1/p" "$top/install.sh")
grep -qxF "$nothing\";" "$top/crates/reuse_arguments/src/arguments.rt" ||
  fail "no line of '$nothing'"

# An rt that leaves what a proof leaves, unless `refused` names the crate
mkdir "$room/bin" "$copy"
cat > "$room/bin/rt" << 'RT'
#!/usr/bin/env bash
set -euo pipefail
here=$(dirname "$0")
case $1 in
  version) cat "$here/logic" ;;
  lib | run)
    crate=$(basename "$PWD")
    [[ $crate != "$(cat "$here/refused")" ]]
    mkdir -p out
    echo "$crate" > out/kept
    [[ $1 == lib ]] || install -m 755 "$here/program" out/reuse_undo
    ;;
esac
RT
printf '%s\n' '#!/bin/sh' 'echo "reuse-undo 0"' "echo '$nothing'" > "$room/bin/program"
chmod +x "$room/bin/rt" "$room/bin/program"
echo 'rattle-kit-0 logic 0123456789abcdef' > "$room/bin/logic"
: > "$room/bin/refused"
tar -C "$top" --exclude=out -cf - HANDLES crates.txt crates share example.sh install.sh |
  tar -C "$copy" -xf -

# install.sh of the copy, with that rt
run() { PATH=$room/bin:$PATH "$copy/install.sh" "$@" > "$room/log" 2>&1; }
install() { run "$@" || fail "install.sh $*: $(tail -n 5 "$room/log")"; }
# The files and folders beneath a folder
list() { (cd "$1" && find . | LC_ALL=C sort); }
crates=$(ls "$copy/crates" | wc -l)
files=$(sed -n '/^files() {/,/^}/p' "$top/install.sh" | grep -c '^    echo ')
((files >= 7)) || fail "install.sh lists $files files"

many_runs() {
  local k
  for ((k = 1; k <= runs; k++)); do
    rm -rf "$copy"/crates/*/out "$room/prefix"
    install "$room/prefix"
    [[ $(cat "$copy"/crates/*/out/kept) == "$(ls "$copy/crates")" ]] || fail "run $k: what is kept"
    ! grep -q tar: "$room/log" || fail "run $k: $(cat "$room/log")"
    [[ $(grep -c ' installed ' "$room/log") == "$files" ]] || fail "run $k: $(cat "$room/log")"
    grep -q '^This is the proved program' "$room/log" || fail "run $k: no program is shown"
  done
  DESTDIR=$room/stage install /usr
  [[ -x $room/stage/usr/bin/reuse-undo ]] || fail 'DESTDIR is not heeded'
  ! grep -q '^This is the proved program' "$room/log" || fail 'a program is shown for a package'
  echo "$runs runs prove $crates crates and install $files files"
}

# What the program says that was installed last
says() { [[ $("$room/prefix/bin/reuse-undo" --version | tail -n 1) == "$1" ]] || fail "not: $1"; }
proof() {
  says 'proved by rattle-kit 0123456789abcdef'
  [[ $("$copy/crates/reuse_undo/out/reuse_undo" --version) == *"$nothing" ]] ||
    fail 'the program that was compiled is changed'
  echo 'rattle-kit-0 logic 0123' > "$room/bin/logic"
  install "$room/prefix"
  says "$nothing"
  grep -q "no place for 'proved by rattle-kit 0123'" "$room/log" || fail 'a logic of another length'
  install --program "$copy/crates/reuse_undo/out/reuse_undo" "$room/prefix"
  says "$nothing"
  [[ $(grep -c 'proved and built' "$room/log") == 0 ]] || fail '--program proves'
  echo 'rattle-kit-0 logic 0123456789abcdef' > "$room/bin/logic"
  install "$room/prefix"
  says 'proved by rattle-kit 0123456789abcdef'
  echo reuse_session > "$room/bin/refused"
  ! run "$room/refused" || fail 'a proof that fails is passed'
  grep -q 'reuse_session: NOT proved' "$room/log" || fail "a proof that fails: $(cat "$room/log")"
  [[ ! -e $room/refused ]] || fail 'a proof that fails leaves a folder'
  : > "$room/bin/refused"
  echo 'a program that was proved says so, and no other'
}

# After installing twice and uninstalling again, a folder is as it was.
comes_and_goes() {
  local at=$1
  shift
  list "$at" > "$room/before"
  install --program "$room/bin/program" "$@"
  install --program "$room/bin/program" "$@"
  grep -q " installed .*styles.toml" "$room/log" || fail "installed: $(cat "$room/log")"
  install --uninstall "$@"
  list "$at" | diff "$room/before" - > "$room/diff" || fail "uninstalled: $(cat "$room/diff")"
}
folders() {
  local at=$room/at
  mkdir "$at"
  comes_and_goes "$at" "$at/new/prefix"
  HOME=$at/home comes_and_goes "$at"
  DESTDIR=$at/new/stage comes_and_goes "$at" /usr/local
  DESTDIR=$at/new/stage comes_and_goes "$at" usr
  (cd "$at" && comes_and_goes "$at" 'a prefix')
  mkdir -p "$at/own/share/man" "$at/own/share/reuse-undo" "$at/own/bin"
  comes_and_goes "$at" "$at/own"
  touch "$at/own/share/man/whatis" "$at/own/share/reuse-undo/notes"
  comes_and_goes "$at" "$at/own"
  # What others put into a folder that it made stays, and so does that folder.
  install --program "$room/bin/program" "$at/other"
  touch "$at/other/share/man/man1/other.1"
  install --uninstall "$at/other"
  [[ $(list "$at/other") == "$(printf '.%s\n' '' /share{,/man{,/man1{,/other.1}}})" ]] ||
    fail "a folder with another file: $(list "$at/other")"
  # Installed by a version that kept no record: its files and its own folder go.
  install --program "$room/bin/program" "$at/old"
  rm "$at/old/share/reuse-undo/folders"
  install --uninstall "$at/old"
  ! list "$at/old" | grep reuse-undo || fail 'a version without a record'
  touch "$at/file"
  ! run --program "$room/bin/program" "$at/file" || fail 'a file is taken for a prefix'
  mkdir "$at/blocked"
  touch "$at/blocked/share"
  ! run --program "$room/bin/program" "$at/blocked" || fail 'a file is taken for a folder'
  [[ ! -e $at/blocked/bin/reuse-undo ]] || fail 'a part is installed'
  echo 'what is uninstalled leaves every folder as it was'
}

# Where there is no kit, install.sh says what to do, and leaves nothing; --program goes on.
without_kit() {
  local tools=$room/tools it
  mkdir "$tools"
  for it in bash env dirname basename realpath mkdir install cat sort rm cut sed; do
    ln -s "$(type -P "$it")" "$tools/$it"
  done
  ! PATH=$tools "$copy/install.sh" "$room/none" > "$room/log" 2>&1 || fail 'a program without a kit'
  for it in 'no command rt' 'take a release' '--program FILE'; do
    grep -qF -- "$it" "$room/log" || fail "without a kit: $(cat "$room/log")"
  done
  [[ ! -e $room/none ]] || fail 'without a kit a folder is left'
  PATH=$tools "$copy/install.sh" --program "$room/bin/program" "$room/none" > "$room/log" 2>&1 ||
    fail "--program without a kit: $(cat "$room/log")"
  grep -qF "$room/none/bin is not in PATH" "$room/log" || fail "PATH: $(cat "$room/log")"
  ! (unset HOME; run) || fail 'a HOME that is not set is passed over'
  grep -q 'no HOME: name a PREFIX' "$room/log" || fail "without HOME: $(cat "$room/log")"
  touch "$room/file"
  ! run "$room/file" || fail 'a prefix that is a file is taken'
  grep -q "can't be written: name another folder" "$room/log" || fail "$(cat "$room/log")"
  echo 'without the kit it says what to do'
}

without_kit
many_runs
proof
folders
