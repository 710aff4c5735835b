#!/usr/bin/env bash
# Roots that are told in many ways, from many folders. While it works files the program stays where
# the system shows its open folders, so each path that it is told is to lead where it led before:
# the root, a folder of licence texts, a list of files, and the root again in notes. A root may be
# `.`, lie above, be a link, or have a number for its name, as an open folder has. The folder that
# the program is called in may be one that can't be read, or that is gone. Each call is compared
# with the same call by an absolute root. Prints how many calls there were; ends with status 1 at
# the first fault.
# usage: tests/roots.sh PROGRAM
# The tags below are data: REUSE-IgnoreStart
set -euo pipefail
. "$(dirname "$0")/common.sh"
wants strace strace
tree=$room/tree texts=$room/texts
calls=0
annotate=(annotate -l MIT -r .)

make_tree() {
  files a.py 'x = 1\n' sub/b.py 'x = 2\n' sub/deep/c.py 'x = 3\n' sub/p.png '\0211'
  mkdir -p "$texts" "$tree/7/8"
  echo 'A licence' > "$texts/LicenseRef-Own.txt"
  printf 'x = 4\n' > "$tree/7/8/d.py"
  printf 'sub/b.py\na.py\n' > "$room/list"
  ln -sfT "$tree" "$room/link"
}

# These calls, one after the other, with what each prints, its notes and its status
work() {
  local status
  "$@" "${annotate[@]}" -n
  "$@" "${annotate[@]}"
  "$@" undo -n --diff
  "$@" undo
  "$@" redo
  "$@" annotate -c Jane -y 2024 --skip-unrecognised -r --files-from "$list" .
  "$@" download --texts "$own" LicenseRef-Own
  "$@" revert 1
  "$@" log
  rm "$tree/LICENSES/LicenseRef-Own.txt"
  "$@" undo -n
  status=0
  "$@" revert 3 || status=$?
  echo "status $status"
  "$@" forget --all
} 2>&1

# Works in this folder, with this root, list and folder of texts, and compares.
from() {
  local folder=$1 root=$2 list=$3 own=$4
  make_tree
  (cd "$folder" && work "$program" -v --root "$root" < /dev/null) > "$room/printed" || true
  sed -E "s#$room/##g; s#(sought in ).*/(LicenseRef)#\1\2#" "$room/printed" > "$room/found"
  state_of "$tree" >> "$room/found"
  if [[ ! -f $room/wanted ]]; then mv "$room/found" "$room/wanted"; return; fi
  cmp "$room/found" "$room/wanted" || fail "in $folder with root $root: $(cat "$room/printed")"
  calls=$((calls + 12))
}

# The paths of the files are short from this folder with this root, or not.
short_paths() {
  local is_short=$1 folder=$2 root=$3
  make_tree
  (cd "$folder" && strace -qq -o "$room/trace" -e trace=rename,link "$program" --root "$root" \
    "${annotate[@]}" > "$room/out")
  [[ $(grep -cE '^(rename|link)\("[0-9]+/new(\.[0-9]+)?", "[0-9]+/[^/]+"\)' "$room/trace") == \
    "$is_short" ]] || fail "the paths of $root in $folder: $(cat "$room/trace")"
}

make_tree
from / "$tree" "$room/list" "$texts"
from "$tree" . ../list ../texts
from "$tree/sub" .. ../../list ../../texts
from "$room" tree list texts
from "$room" link list ./texts
from "$room" ./tree/../tree/. "$room/list" texts
from "$tree/7/8" ../.. ../../../list ../../../texts

# A root whose name is a number, as each open folder has one
for name in 0 3 5 7 8 9; do
  rm -rf "$room/numbers"
  mkdir "$room/numbers"
  make_tree
  ln -sT "$tree" "$room/numbers/$name"
  from "$room/numbers" "$name" ../list ../texts
done

short_paths 8 "$tree" .
short_paths 8 / "$tree"
short_paths 8 "$room" tree

# A folder that is gone
make_tree
mkdir "$room/gone"
(cd "$room/gone" && rmdir "$room/gone" && "$program" --root "$tree" "${annotate[@]}" > "$room/out" &&
  "$program" --root "$tree" undo > "$room/out") || fail 'in a folder that is gone'

# One that can't be read
if ((EUID == 0)); then
  make_tree
  mkdir -p "$room/closed/below"
  chmod 711 "$room/closed" "$room"
  chown -R nobody "$tree"
  cp "$program" "$room/program"
  (cd "$room/closed" && setpriv --reuid nobody --clear-groups "$room/program" --root ../tree \
    "${annotate[@]}" > "$room/out") || fail 'in a folder that cannot be read'
  [[ $(wc -l < "$room/out") == 5 ]] || fail "in a folder that cannot be read: $(cat "$room/out")"
  calls=$((calls + 1))
fi
echo "$calls calls by relative roots do what those by absolute ones do, and tell the same"
