#!/usr/bin/env bash
# Runs the program as a user who isn't root (as nobody where the caller is root) on a tree with a
# folder that he may not open, a folder whose name isn't UTF-8, `node_modules` and a submodule. The
# odd name stands in the closed folder, in one that is left out, or at the root. Each call that
# needs none of these does its work, and its dry run has status 0 exactly if the call is accepted:
# annotate and amend of a file, of an image, of a folder, of all but what is excluded, of what git
# lists; download, convert-dep5, a mistyped path; undo, redo and revert. A call that needs one of
# them is refused, and so is its dry run. Ends with status 1 at the first fault.
# usage: tests/closed_folders.sh PROGRAM
# The tags below are data: REUSE-IgnoreStart
set -euo pipefail
. "$(dirname "$0")/common.sh"
wants git git
tree=$room/tree
export GIT_CONFIG_GLOBAL=$room/gitconfig GIT_CONFIG_NOSYSTEM=1 HOME=$room
as=()
if ((EUID == 0)); then
  wants setpriv util-linux
  as=(setpriv --reuid=65534 --regid=65534 --clear-groups)
  cp "$program" "$room/program"
  program=$room/program
  chmod 755 "$room" "$program"
fi
printf '[user]\nname = Jane\nemail = jane@example.org\n[protocol "file"]\nallow = always\n' \
  > "$room/gitconfig"
printf '[init]\ndefaultBranch = main\n[safe]\ndirectory = *\n' >> "$room/gitconfig"
mkdir "$room/texts"
echo 'a text' > "$room/texts/MIT.txt"
git init -q "$room/library"
echo 'line = 1' > "$room/library/file.py"
git -C "$room/library" add -A
git -C "$room/library" commit -qm First

# The tree, with a folder of an odd name in this one (empty for the root), and a closed one
odd_folder=$'\377dir'
make_tree() {
  [[ ! -d $tree ]] || chmod -R u+rwx "$tree"
  files a.py 'x\n' src/b.py 'x\n' src/deep/c.c 'int x;\n' node_modules/x/y.js 'x\n' \
    node_modules/z.js 'x\n' pgdata/base.py 'x\n' data/d.py 'x\n' z.py 'x\n'
  printf '\0211\0' > "$tree/p.png"
  make_dep5 "$tree"
  git init -q "$tree"
  printf '/pgdata\n/data\n/node_modules\n' >> "$tree/.git/info/exclude"
  git -C "$tree" submodule --quiet add "$room/library" vendor/module
  git -C "$tree" add -A
  git -C "$tree" commit -qm Start
  mkdir -p "$tree${1:+/$1}/$odd_folder"
  echo x > "$tree${1:+/$1}/$odd_folder/e.py"
  ((EUID != 0)) || chown -R 65534:65534 "$tree"
  # Root's, where the caller is root; else the caller's, who may not open it either
  if ((EUID == 0)); then
    chown -R 0:0 "$tree/pgdata"
    chmod 700 "$tree/pgdata"
  else
    chmod 000 "$tree/pgdata"
  fi
}

# One checksum over the names and bytes of all files that he may read, outside of the journal
sums() {
  (cd "$tree" && find . \( -path ./pgdata -o -path ./.git -o -path ./.reuse/undo \) -prune -o \
    -type f -print0 | LC_ALL=C sort -z | xargs -0 sha256sum | sha256sum)
}

calls=0
run() { "${as[@]}" "$program" --root "$tree" "$@" > "$room/out" 2> "$room/error"; }

# The call prints these lines, and its dry run that these paths would change, with status 0: it
# changes nothing. `input` is what both read.
input=/dev/null
works() {
  local wanted=$1 status=0 before
  shift
  before=$(sums)
  run "$@" --dry-run < "$input" || status=$?
  [[ $status == 0 && ! -s $room/error ]] || fail "$* --dry-run: status $status, $(< "$room/error")"
  [[ $(sed -nE 's/^would change //p' "$room/out" | LC_ALL=C sort) == "$(paths_of "$wanted")" ]] ||
    fail "$* --dry-run: it prints $(< "$room/out")"
  [[ $(sums) == "$before" ]] || fail "$* --dry-run: files are changed"
  run "$@" < "$input" || status=$?
  [[ $status == 0 && ! -s $room/error ]] || fail "$*: status $status, $(< "$room/error")"
  [[ $(< "$room/out") == "$wanted" ]] || fail "$*: it prints $(< "$room/out")"
  calls=$((calls + 2))
}
lines() { printf '%s\n' "$@"; }
paths_of() { sed -E 's/^(changed|undone|redone) //' <<< "$1" | LC_ALL=C sort; }

# The call and its dry run are refused with this text, with status 1, and change nothing.
refused() {
  local wanted=$1 status before dry
  shift
  before=$(sums)
  for dry in --dry-run ''; do
    status=0
    run "$@" $dry < "$input" || status=$?
    [[ $status == 1 && $(< "$room/error") == "reuse-undo: $wanted" ]] ||
      fail "$* $dry: status $status, $(< "$room/error")"
    [[ $(sums) == "$before" ]] || fail "$* $dry: files are changed"
    calls=$((calls + 1))
  done
}

# So many undos give the first files back, and each redo makes its step again.
back_and_forth() {
  local step lines=() before after
  after=$(sums)
  for ((step = $1; step > 0; step--)); do
    run undo --dry-run || fail "undo --dry-run: $(< "$room/error")"
    lines[step]=$(sed 's/^would change/undone/' "$room/out")
    works "${lines[step]}" undo
  done
  before=$(sums)
  for ((step = 1; step <= $1; step++)); do works "${lines[step]//undone/redone}" redo; done
  [[ $(sums) == "$after" ]] || fail "redo gives other files"
  for ((step = $1; step > 0; step--)); do works "${lines[step]}" undo; done
  [[ $(sums) == "$before" ]] || fail "undo gives other files"
}

annotate=(annotate -l MIT)
for place in pgdata data ''; do
  make_tree "$place"
  first=$(sums)
  works 'changed a.py' "${annotate[@]}" a.py
  works 'changed p.png.license' "${annotate[@]}" p.png
  works $'changed src/b.py\nchanged src/deep/c.c' "${annotate[@]}" -r src
  works 'changed a.py' amend --replace-license MIT ISC a.py
  works $'changed src/b.py\nchanged src/deep/c.c' amend --replace-license MIT ISC -r src
  works 'changed LICENSES/MIT.txt' download --texts "$room/texts" MIT
  works $'changed .reuse/dep5\nchanged REUSE.toml' convert-dep5
  for word in aa.py src/aa.py a.py/b p.pn; do
    refused "$word: no such path" "${annotate[@]}" "$word"
    refused "$word: no such path" "${annotate[@]}" -r "$word"
  done
  works $'changed src/b.py\nchanged src/deep/c.c' revert 5
  works 'changed LICENSES/MIT.txt' revert 6
  back_and_forth 9
  [[ $(sums) == "$first" ]] || fail 'all undos give other files than the first'
  # What is excluded isn't looked into, and what git lists needs no other folder.
  options=(--skip-unrecognised -r .)
  tracked=('changed a.py' 'changed p.png.license' 'changed src/b.py' 'changed src/deep/c.c'
    'changed z.py')
  all=("${tracked[0]}" 'changed node_modules/x/y.js' 'changed node_modules/z.js' "${tracked[@]:1:3}"
    'changed vendor/module/file.py' 'changed z.py')
  by_git=("${annotate[@]}" -c Jane -y 2024 "${options[@]}" --files-from -)
  "${as[@]}" git -C "$tree" ls-files -z > "$room/list"
  case $place in
    pgdata)
      works "$(lines "${all[0]}" 'changed data/d.py' "${all[@]:1}")" "${annotate[@]}" \
        "${options[@]}" --exclude pgdata
      input=$room/list works "$(lines "${tracked[@]}")" "${by_git[@]}"
      back_and_forth 2
      ;;
    data)
      works "$(lines "${all[@]}")" "${annotate[@]}" "${options[@]}" --exclude pgdata --exclude data
      input=$room/list works "$(lines "${tracked[@]}")" "${by_git[@]}"
      back_and_forth 2
      refused 'store fault' "${annotate[@]}" "${options[@]}" --exclude pgdata
      refused 'store fault' "${annotate[@]}" -r data
      ;;
    '')
      refused 'store fault' "${annotate[@]}" "${options[@]}" --exclude pgdata
      input=$room/list refused 'store fault' "${by_git[@]}"
      ;;
  esac
  # What is asked for and can't be looked at is refused.
  refused 'store fault' "${annotate[@]}" "${options[@]}"
  refused 'store fault' "${annotate[@]}" -r pgdata
  refused 'store fault' "${annotate[@]}" pgdata/base.py
  [[ $(sums) == "$first" ]] || fail 'files are changed at the end'
done
chmod -R u+rwx "$tree"
echo "$calls calls and dry runs beside a closed folder, an odd name, node_modules and a" \
  "submodule: each that needs none of them does its work"
