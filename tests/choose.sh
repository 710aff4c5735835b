#!/usr/bin/env bash
# Annotates the files that `git ls-files` lists in a repository with ignored, untracked, deleted and
# linked files, odd names, a submodule and a nested clone, and compares with what git knows; then
# lists in lines, lists with words that are no paths, and globs. Ends with status 1 at the first
# fault.
# usage: tests/choose.sh PROGRAM
set -euo pipefail
. "$(dirname "$0")/common.sh"
use_git
tree=$room/tree

# Each file outside of git's and the journal's, with its bytes, and each link with its target
files_of() {
  find "$tree" -name .git -prune -o -path "$tree/.reuse" -prune -o \( -type f -o -type l \) \
    -print0 | sort -z | while IFS= read -r -d '' file; do
    if [[ -L $file ]]; then
      readlink "$file"
    else
      cat "$file"
    fi | sha256sum | (read -r sum _ && printf '%q %s\n' "${file#"$tree/"}" "$sum")
  done
}
# The paths of the files that differ from those of before, a neighbour as its file
changed() {
  diff <(echo "$before") <(files_of) | sed -nE 's/^[<>] (.*) [0-9a-f]{64}$/\1/p' |
    sed -E "s/\.license('?)\$/\1/" | LC_ALL=C sort -u
}
annotate() {
  "$program" --root "$tree" annotate -c 'Jane Doe' -y 2024 -l MIT -r --fallback-dot-license "$@" \
    > "$room/out" 2>&1
}
undo() {
  "$program" --root "$tree" undo > "$room/out" 2>&1 || fail "undo: $(cat "$room/out")"
  [[ $(files_of) == "$before" ]] || fail "undo: $(diff <(echo "$before") <(files_of))"
}
# Annotates with the arguments; just these files are changed, and undo takes it back.
counted=0
chooses() {
  local wanted=()
  while [[ $1 != by ]]; do wanted+=("$(printf %q "$1")"); shift; done
  shift
  annotate "$@" || fail "$*: $(cat "$room/out")"
  [[ $(changed) == "$( ((${#wanted[@]})) && printf '%s\n' "${wanted[@]}" | LC_ALL=C sort)" ]] ||
    fail "$*: changed $(changed)"
  if ((${#wanted[@]})); then
    undo
  else
    [[ $(< "$room/out") == 'nothing changed' ]] || fail "$*: $(cat "$room/out")"
  fi
  counted=$((counted + 1))
}
# The program refuses the arguments with status 2 and this text, and changes nothing.
refuses() {
  local text=$1 status=0
  shift
  annotate "$@" || status=$?
  [[ $status == 2 ]] || fail "$*: status $status"
  grep -qF -- "$text" "$room/out" || fail "$*: $(cat "$room/out")"
  [[ $(files_of) == "$before" ]] || fail "$*: changed $(changed)"
  counted=$((counted + 1))
}

git init -q "$room/library"
echo 'line = 1' > "$room/library/file.py"
git -C "$room/library" add -A
git -C "$room/library" commit -qm First

files .gitignore 'build/\n*.log\n' a.py 'x\n' empty.py '' run 'x\n' src/b.py 'x\n' src/deep/c.c \
  'int x;\n' src/p.png '\0211\0' src/data.json '{}\n' gone.py 'x\n' \
  LICENSES/MIT.txt 'text\n' LICENSE 'text\n' REUSE.toml 'version = 1\n' 'odd "é.py' 'x\n' \
  'two words.py' 'x\n' 'a*.py' 'x\n' 'back\slash.py' 'x\n' build/gen.py 'x\n' \
  src/build/gen.py 'x\n' src/trace.log 'x\n' new.py 'x\n' src/new.c 'int x;\n'
printf 'x\n' > "$tree/"$'line\nend.py'
chmod +x "$tree/run"
git init -q "$tree"
ln -s a.py "$tree/link.py"
ln -s src "$tree/linked"
git -C "$tree" submodule --quiet add "$room/library" vendor/module
git -C "$tree" add -A
git -C "$tree" reset -q new.py src/new.c
git -C "$tree" commit -qm Start
git clone -q "$room/library" "$tree/vendor/clone"
rm "$tree/gone.py"
before=$(files_of)

# What git tracks: its regular files that are there, but for licence texts and metadata
tracked=()
while IFS= read -r -d '' entry; do
  path=${entry#*$'\t'}
  [[ $entry == 100* && -f $tree/$path ]] || continue
  case $path in LICENSES/* | LICENSE | REUSE.toml) ;; *) tracked+=("$path") ;; esac
done < <(git -C "$tree" ls-files -s -z)
((${#tracked[@]} == 14)) || fail "git tracks ${#tracked[@]} files: ${tracked[*]}"
git -C "$tree" ls-files -z > "$room/list"
chooses "${tracked[@]}" by --files-from "$room/list" .
chooses "${tracked[@]}" by --files-from - . < "$room/list"
chooses "${tracked[@]}" by --files-from - . < <(git -C "$tree" ls-files -z)
# so is what isn't tracked and not ignored, but for the clone
chooses "${tracked[@]}" new.py src/new.c by --files-from - . \
  < <(git -C "$tree" ls-files -z --cached --others --exclude-standard)
chooses src/b.py src/deep/c.c src/p.png src/data.json by --files-from "$room/list" src
annotate --files-from "$room/list" . || fail "$(cat "$room/out")"
for repository in vendor/clone vendor/module; do
  [[ -z $(git -C "$tree/$repository" status --porcelain) ]] ||
    fail "$repository: $(git -C "$tree/$repository" status --porcelain)"
done
undo

# Lists in lines, with and without an end, and words that name no file beneath a PATH
chooses a.py src/b.py by --files-from - . <<< $'a.py\nsrc/b.py'
chooses a.py 'two words.py' by --files-from - . < <(printf 'two words.py\na.py')
chooses a.py 'two words.py' src/b.py by --files-from - . \
  < <(printf 'two words.py\r\na.py\r\nsrc/b.py\r')
chooses src/b.py by --files-from - . < <(printf 'a.py\r\0src/b.py\0')
chooses a.py src/b.py by --files-from - . \
  < <(printf '%s\n' ./a.py src/./b.py/ '' . .. ../a.py /a.py src//b.py src none.py link.py \
  linked/b.py LICENSE $'\xff.py' .reuse/undo/head.json)
chooses $'line\nend.py' by --files-from - . < <(printf 'line\nend.py\0')
chooses by --files-from - . < <(printf 'line\nend.py\n')
chooses by --files-from /dev/null .
chooses by --files-from - src <<< a.py
# a PATH that is a file is annotated all the same
chooses a.py src/b.py by --files-from - a.py src <<< src/b.py
chooses a.py by --files-from /dev/null --exclude '**' a.py .

# Globs
chooses a.py empty.py 'a*.py' by --files-from - --exclude 'src/**' --exclude run . \
  < <(printf '%s\n' a.py empty.py 'a*.py' src/b.py src/deep/c.c run)
chooses src/b.py src/deep/c.c src/new.c src/p.png src/trace.log src/data.json by \
  --exclude 'src/build/**' src
chooses src/b.py src/new.c src/deep/c.c src/p.png src/data.json src/trace.log src/build/gen.py by \
  --exclude '*.py' --exclude '*/*.xyz' src
chooses src/deep/c.c src/p.png src/data.json src/trace.log src/build/gen.py by \
  --exclude 'src/*.py' --exclude 'src/*.c' src
chooses src/p.png src/data.json src/trace.log by --exclude '**.py' --exclude '**.c' src
chooses a.py 'back\slash.py' by --files-from "$room/list" --exclude 'src/**' --exclude '**é.py' \
  --exclude 'a\*.py' --exclude '?*' --exclude $'line*' --exclude 'two*' --exclude '.*' \
  --exclude run --exclude empty.py .
chooses a.py by --files-from - --exclude 'back\\*' --exclude '* *.py' . \
  < <(printf '%s\n' a.py 'back\slash.py' 'two words.py')
# a folder is left out whole, however it is written, and at any depth
for folder in src src/ ./src 'src/**' 'src/.' '**/src' 's*' 'src/*'; do
  chooses a.py by --files-from - --exclude "$folder" . <<< $'a.py\nsrc/b.py\nsrc/deep/c.c'
done
chooses a.py src/b.py by --files-from - --exclude '**/deep' . <<< $'a.py\nsrc/b.py\nsrc/deep/c.c'
chooses a.py src/b.py src/deep/c.c by --files-from - --exclude deep --exclude '*/src' \
  --exclude 'a.py/x' . <<< $'a.py\nsrc/b.py\nsrc/deep/c.c'
chooses src/b.py by --exclude src src/b.py

# Faults
for glob in '' . ./ / /src src//b.py .. src/../a.py '**/..'; do
  refuses "reuse-undo: bad glob: $glob" --exclude "$glob" .
done
refuses "reuse-undo: $room/none: cannot be read" --files-from "$room/none" .
refuses "reuse-undo: $room: cannot be read" --files-from "$room" .
truncate -s 268435457 "$room/long"
refuses "reuse-undo: $room/long: cannot be read" --files-from "$room/long" .
refuses 'reuse-undo: bad glob: a\b' --exclude 'a\b' .
refuses 'reuse-undo: bad glob: a\' --exclude '*' --exclude 'a\' .
refuses 'reuse-undo: bad path: ..' --exclude 'a\b' --files-from "$room/none" ..
refuses 'reuse-undo: bad glob: a\b' --exclude 'a\b' --files-from "$room/none" .
for option in --files-from --exclude; do
  status=0
  "$program" --root "$tree" annotate -l MIT "$option" x a.py > "$room/out" 2>&1 || status=$?
  [[ $status == 2 ]] && grep -q -- --recursive "$room/out" || fail "$option: $(cat "$room/out")"
done
echo "just the files that are asked for are annotated: ${#tracked[@]} that git tracks, and by" \
  "$counted other calls; $(git -C "$tree" ls-files -z | tr -cd '\0' | wc -c) paths are listed"
