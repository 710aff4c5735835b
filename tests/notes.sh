#!/usr/bin/env bash
# Runs the program into each note with -v and at a terminal, and without either, where standard
# error is as it was without notes. At a terminal long work shows its progress, which is cleared at
# the end, and names show no control byte. Ends with status 1 at the first fault.
# usage: tests/notes.sh PROGRAM
# The tags below are data: REUSE-IgnoreStart
set -euo pipefail
. "$(dirname "$0")/common.sh"
wants script bsdutils
wants strace strace
tree=$room/tree
jane=(-c "Jane Doe" -y 2024)
notes=0
# The one note that is told without -v and a terminal, too
always='^reuse-undo: note: step [0-9]+, which a stopped run had begun, was set back'
always+=' \([0-9]+ files?\)$'

# Words, and the call with this root, as a text for bash, which `script` then runs, since another
# shell may not read `$'..'`
SHELL=$(command -v bash)
export SHELL
spelt() { printf '%q ' "$@"; }
spelt_call() { spelt "$program" --root "$tree" "$@"; }

# What a terminal was told, without lines of progress, which a slow machine may add
told() { sed -E $'s/\r[^\r]*\033\\[K//g' | tr -d '\r'; }

# What a call tells on standard error: quietly, with -v and at a terminal. A call that changes
# something is made on a copy.
try() {
  local kind
  for kind in quiet verbose terminal; do
    rm -rf "$room/copy"
    cp -a "$tree" "$room/copy"
    case $kind in
      quiet) "$program" --root "$tree" "$@" > "$room/out" 2> "$room/quiet" || true ;;
      verbose) "$program" --root "$tree" -v "$@" > "$room/out.verbose" 2> "$room/verbose" || true ;;
      terminal)
        script -qec "$(spelt_call "$@") > $room/out.terminal" /dev/null < /dev/null |
          told > "$room/terminal" || true
        ;;
    esac
    rm -rf "$tree"
    mv "$room/copy" "$tree"
  done
}

# The call tells these notes, each a regular expression, and nothing else than without -v; at a
# terminal too.
notes() {
  local call=() wanted
  while [[ $1 != : ]]; do
    call+=("$1")
    shift
  done
  shift
  try "${call[@]}"
  [[ $(grep -E "$always" "$room/quiet") == "$(grep -E "$always" "$room/verbose")" ]] ||
    fail "${call[*]}: without -v is told $(cat "$room/quiet")"
  sed -i -E "/$always/d" "$room/quiet"
  ! grep -q 'reuse-undo: note: ' "$room/quiet" ||
    fail "${call[*]}: a note that nobody asked for: $(cat "$room/quiet")"
  cmp -s "$room/out" "$room/out.verbose" || fail "${call[*]}: -v prints $(cat "$room/out.verbose")"
  sed '/^reuse-undo: note: /d' "$room/verbose" | cmp -s - "$room/quiet" ||
    fail "${call[*]}: -v tells $(cat "$room/verbose")"
  cmp -s "$room/verbose" "$room/terminal" ||
    fail "${call[*]}: a terminal is told $(cat "$room/terminal")"
  [[ $(grep -c '^reuse-undo: note: ' "$room/verbose") == $# ]] ||
    fail "${call[*]}: not $# notes: $(cat "$room/verbose")"
  for wanted; do
    grep -qE "^reuse-undo: note: $wanted\$" "$room/verbose" ||
      fail "${call[*]}: no note $wanted: $(cat "$room/verbose")"
    notes=$((notes + 1))
  done
}

words() {
  local place adds path empty bad
  adds='say what is to be added, by --copyright, --license or --contributor;'
  adds+=' --text, --year and --copyright-prefix alone add nothing'
  path='a PATH starts at the root: it has no slash in front, no part \.\. and no empty part;'
  path+=' with --up it starts at the working folder'
  empty='a holder or a contributor is empty: give its text, or leave the option out'
  bad='a holder or a contributor has no control character,'
  bad+=' and neither REUSE-IgnoreStart nor SPDX-SnippetBegin'
  files a.py 'x\n' in/b.py 'x\n'
  notes annotate -c A -y 24 a.py : 'a year has four digits; .*--year 2019 --year 2024'
  notes annotate a.py : "$adds"
  notes annotate --text "$tree/a.py" a.py : "$adds"
  notes annotate -y 2024 --copyright-prefix string a.py : "$adds"
  notes annotate -c '' a.py : "$empty"
  notes annotate --contributor ' ' a.py : "$empty"
  notes amend --replace-holder A '' a.py : "$empty"
  notes annotate -c 'A SPDX-SnippetBegin' a.py : "$bad"
  notes annotate -l MIT /a.py : "$path"
  notes annotate -l MIT in/../a.py : "$path"
  notes amend --replace-license MIT ISC in//b.py : "$path"
  notes annotate -l MIT in : 'with --recursive a folder stands for the files beneath it'
  notes annotate -n -l MIT in : 'with --recursive a folder stands for the files beneath it'
  notes amend --replace-license MIT ISC . : \
    'with --recursive a folder stands for the files beneath it'
  notes annotate -l 'MIT AND' a.py :
  notes amend a.py : 'say what is to be changed, as by --replace-license .*'
  notes amend --until 26 a.py : 'a year has four digits; .*'
  # Before the subcommand, behind it, and long
  for place in "-v --root $tree undo" "--root $tree undo -v" "undo --root $tree --verbose"; do
    # shellcheck disable=SC2086
    "$program" --root "$tree" annotate "${jane[@]}" a.py > /dev/null
    "$program" $place > /dev/null 2> "$room/error"
    grep -q '^reuse-undo: note: 1 file changed back' "$room/error" || fail "$place: no note"
  done
}

changes() {
  local both='2 files changed; reuse-undo undo takes that back'
  files a.py 'x\n' b.py 'x\n'
  notes annotate "${jane[@]}" -r . : "$both"
  notes log :
  "$program" --root "$tree" annotate "${jane[@]}" -r . > /dev/null
  notes annotate "${jane[@]}" -r . :
  notes undo : '2 files changed back; reuse-undo redo makes that step again'
  "$program" --root "$tree" undo > /dev/null
  notes redo : "$both"
}

refusals() {
  local long way_out out left
  local listed='reuse-undo styles lists them, with the ready styles that styles --add adds'
  long=$(printf %0250d 0)
  files "$long" 'x\n'
  notes annotate --force-dot-license -l MIT "$long" \
    : 'the file that would be made has a name of more than 255 bytes, .*--style .*'
  files b.xyz 'x\n' c.xyz 'x\n' a.py 'x\n'
  left='no comment style is known for this name, and no ready one is left: name one with --style or'
  left+=' by a line in \.reuse/styles\.toml, write .* with --fallback-dot-license, or .*'
  left+=' with --skip-unrecognised'
  notes annotate -l MIT b.xyz : "$left"
  notes download --texts "$room/texts" Foo : "the text was sought in $room/texts/Foo\.txt"
  "$program" --root "$tree" annotate -l MIT a.py > /dev/null
  echo y >> "$tree/a.py"
  notes undo : 'this file was changed since: .*reuse-undo revert .*reuse-undo forget .*'
  notes undo -n : 'this file was changed since: .*'
  notes revert 7 : 'reuse-undo log tells the numbers of the steps'
  notes show 7 : 'reuse-undo log tells the numbers of the steps'
  notes revert 1 : '1 file changed; reuse-undo undo takes that back'
  "$program" --root "$tree" revert 1 > /dev/null
  out="what the step wrote doesn't stand in this file as it did: .*--skip-moved;"
  notes revert 1 : "$out .*reuse-undo forget .*"
  out="the step couldn't be taken out of any file, and stays done;"
  notes revert --skip-moved 1 : "$out reuse-undo forget takes it out of the history"
  notes annotate -n -l MIT b.xyz c.xyz a.py : "$left" \
    "2 files of 1 name aren't recognised; reuse-undo styles lists their names"
  notes annotate -l MIT b.xyz c.xyz : "$left" \
    "2 files of 1 name aren't recognised; reuse-undo styles lists their names"
  notes annotate --skip-unrecognised -l MIT b.xyz c.xyz : \
    "2 files passed over, since no comment style is known for the names; $listed"
  notes annotate --skip-unrecognised --skip-existing -l MIT b.xyz c.xyz :
  files a.mjs 'x\n' .reuse/styles.toml 'version = 1\nstyles = { ".x" = "c" }\n'
  notes styles :
  notes styles --add : 'behind the last line of this file no name or table can be added, .*'
  files a.mjs 'x\n'
  notes styles --add : '1 file changed; reuse-undo undo takes that back'
  notes styles --exclude none : '--exclude none left no file out'
  # Of files that change, stay as they are and are passed over, the last alone are counted
  files b.xyz 'x\n' c.xyz 'x\n' a.py 'x\n' d.py 'x\n'
  "$program" --root "$tree" annotate -l MIT a.py > /dev/null
  notes annotate --skip-unrecognised -l MIT -r . : '1 file changed; .*' \
    "2 files passed over, since no comment style is known for the names; $listed"
  rm "$tree/c.xyz" "$tree/d.py"
  notes annotate --skip-unrecognised -l MIT -r . : \
    "1 file passed over, since no comment style is known for the names; $listed"
  rm "$tree/b.xyz"
  notes annotate --skip-unrecognised -l MIT -r . :
  notes annotate -l MIT zz :
  files a.py 'x\n'
  "$program" --root "$tree" annotate -l MIT a.py > /dev/null
  "$program" --root "$tree" undo > /dev/null
  echo y >> "$tree/a.py"
  notes redo : \
    'this file was changed since the step was taken back: take that change back and call again'
  rm "$tree/a.py"
  notes redo : 'this file is gone: put it back and call again'
  files a.py 'x\n' b.py 'x\n'
  "$program" --root "$tree" annotate -l MIT -r . > /dev/null
  rm "$tree/a.py"
  way_out='or reuse-undo revert --skip-moved takes the step out of the other files'
  out="this file is gone: put it back and call again"
  notes undo : "$out; $way_out, and reuse-undo forget out of the history alone"
  notes undo -n : 'this file is gone: .*'
  way_out='or reuse-undo forget takes the step out of the history, and leaves all files'
  notes revert 1 : "$out, or leave it out with --skip-moved; $way_out"
  notes revert -n 1 : 'this file is gone: .*'
  mkdir "$tree/a.py"
  notes undo : 'this file was changed since: .*'
  files a.py 'x\n' .reuse/styles.toml 'version = 1\n[styles]\n".proto" = "pascal"\n'
  notes annotate -l MIT a.py : 'what is wrong with \.reuse/styles\.toml: bad style of \.proto'
  files a.py 'x\n' .reuse/comments.toml 'version = 1\n[comments.own]\nopen = "<<"\nclose = "<"\n'
  notes annotate -l MIT a.py : \
    'what is wrong with \.reuse/comments\.toml: bad marks of own: the closer stands in the opener'
  files a.py 'x\n' .reuse/comments.toml 'version = 1\n[[rules]]\nname = "*"\nstyle = "cc"\n'
  notes annotate -l MIT a.py : 'what is wrong with \.reuse/comments\.toml: bad style of rule 1'
}

# Whether `styles --add` has something for names: a style, or rules for first lines where a name has
# no ending, unless the tree has them
ready() {
  local add left two="2 files of 2 names aren't recognised;"
  local listed='reuse-undo styles lists them, styles --add adds ready ones'
  add='no comment style is known for this name: add ready ones by reuse-undo styles --add, .*'
  left='no comment style is known for this name, and no ready one is left: .*'
  files a.mjs 'x\n' b.xyz 'x\n'
  notes annotate -l MIT a.mjs : "$add"
  notes annotate -l MIT b.xyz : "$left"
  notes annotate -l MIT b.xyz a.mjs : "$add" "$two $listed"
  notes annotate -n -l MIT -r . : "$add" "$two $listed"
  "$program" --root "$tree" styles --add > /dev/null
  notes annotate -l MIT -r . : "$left"
  notes annotate -n -l MIT -r . : "$left"
  touch "$tree/c.zyx"
  notes annotate -l MIT -r . : "$left" "$two reuse-undo styles lists their names"
  files script 'x\n' b.xyz 'x\n'
  notes annotate -l MIT -r . : "$add" "$two $listed"
  "$program" --root "$tree" styles --add > /dev/null
  notes annotate -l MIT -r . : "$left" "$two reuse-undo styles lists their names"
  files a.mjs 'x\n' .reuse/styles.toml 'version = 1\nstyles = { ".x" = "c" }\n'
  notes annotate -l MIT a.mjs : "$left"
}

# A call that passes files over has counted them itself: with notes it asks the system for no name
# of the tree more often than without.
once() {
  local kind quiet verbose
  files b.xyz 'x\n' c.xyz 'x\n' in/a.py 'x\n'
  for kind in quiet verbose; do
    rm -rf "$room/copy"
    cp -a "$tree" "$room/copy"
    # (a file that was changed right before the call may be read twice)
    sleep 0.2
    [[ $kind == quiet ]] && set -- || set -- -v
    strace -f -qq -o "$room/trace" "$program" --root "$room/copy" "$@" annotate -l MIT \
      --skip-unrecognised -r . > /dev/null 2> "$room/error"
    printf -v "$kind" %s "$(grep -cE '(b\.xyz|c\.xyz|a\.py)"' "$room/trace")"
  done
  grep -q '^reuse-undo: note: 2 files passed over' "$room/error" ||
    fail 'no note of files passed over'
  ((quiet > 0 && verbose == quiet)) || fail "with notes $verbose calls name the files, not $quiet"
}

# Globs that left nothing out, and listed paths that are no covered file beneath a PATH
choices() {
  local changed='1 file changed; .*' list=$room/list
  idle() { printf -- '--exclude %s left no file out' "$1"; }
  unmet() { printf '%s paths of the list are no covered files beneath a PATH' "$1"; }
  files src/a.py 'x\n' src/b.log 'x\n' src/old/c.py 'x\n' node_modules/m/i.js 'x\n' LICENSE 'x\n'
  # A file, and folders that are passed over: by their paths, by their names, and by what is in them
  notes annotate -l MIT -r --exclude node_modules --exclude 'src/*.log' --exclude '**/old' . \
    : "$changed"
  notes annotate -l MIT -r --exclude '**/node_modules' --exclude '**.log' --exclude 'src/old/**' . \
    : "$changed"
  notes annotate -l MIT -r --exclude node_module --exclude '**/*.lgo' --exclude '**/b.log' \
    --exclude src/old/ --exclude a.py src : "$changed" "$(idle node_module)" \
    "$(idle '\*\*/\*\.lgo')" "$(idle 'a\.py')"
  # What isn't covered isn't left out, nor what lies beneath no PATH; and a PATH that is a file
  # isn't
  notes annotate -l MIT -r --exclude LICENSE --exclude node_modules --exclude 'src/a*' \
    src/old src/a.py \
    : '2 files changed; .*' "$(idle LICENSE)" "$(idle node_modules)" "$(idle 'src/a\*')"
  notes annotate -n -l MIT -r --exclude node_modules --exclude none --exclude '**.log' . \
    : "$(idle none)"
  notes annotate -n --json -l MIT -r --exclude none src/old : "$(idle none)"
  printf '%s\n' src/a.py src/gone.py LICENSE node_modules/m/i.js > "$list"
  notes annotate -l MIT -r --files-from "$list" src : "$changed" "$(unmet 3)"
  notes annotate -l MIT -r --files-from "$list" --exclude '**/i.js' --exclude '**.py' . \
    : '1 path of the list is no covered file beneath a PATH'
  notes annotate -n -l MIT -r --files-from "$list" . : "$(unmet 2)"
  printf '%s\n' src/a.py > "$list"
  notes annotate -l MIT -r --files-from "$list" . : "$changed"
  "$program" --root "$tree" annotate -l MIT -r src/a.py > /dev/null
  notes amend --replace-license MIT ISC -r --files-from "$list" --exclude docs . \
    : "$changed" "$(idle docs)"
  notes annotate -l MIT -r --exclude none missing :
}

# What an amendment leaves of what it names
left() {
  local one=(amend --replace-license MIT ISC -r .) mit='# SPDX-License-Identifier: MIT\n'
  local what='what the call names: amend changes header blocks, neighbours and REUSE.toml alone, '
  local beside='what the call names: what is removed stays if other text stands on its line'
  what+='and with --everywhere each tag of a text'
  local change='1 file changed; .*'
  files a.py "$mit" script "$mit"
  notes "${one[@]}" : "$change" "1 path still holds $what"
  notes "${one[@]}" -n : "1 path still holds $what"
  notes "${one[@]}" --check --json : "1 path still holds $what"
  notes "${one[@]}" --exclude script : "$change"
  files b.py "$mit\n$mit" script "$mit"
  notes "${one[@]}" : "$change" "2 paths still hold $what"
  "$program" --root "$tree" "${one[@]}" > /dev/null
  notes "${one[@]}" : "2 paths still hold $what"
  notes undo : '1 file changed back; .*'
  # Beside a refusal in a dry run, and not in the call that is refused
  files a.py "$mit" script "$mit"
  notes amend --remove-license MIT -r . -n : 'neither a licence .*' "1 path still holds $what"
  notes amend --remove-license MIT -r . : 'neither a licence .*'
  # With --everywhere another note says why
  one+=(--everywhere)
  files b.py "$mit\n$mit" script "$mit"
  notes "${one[@]}" : '2 files changed; .*'
  files a.py "x = 1  $mit" script "$mit"
  notes amend --remove-license MIT -r . --everywhere -n : "1 path still holds $beside"
  notes amend --replace-license MIT 'MIT OR ISC' -r . --everywhere : '2 files changed; .*'
}

# A header in a file that had none, where its first line may have to stay the first
harms() {
  local name word text each line="$room/harms" changed='1 file changed; .*' jo=(-c Jo -y 2024)
  breaks() {
    local own='\.reuse/comments\.toml' way
    way="first-lines and front-matter in $own keep such lines in front: see reuse-undo\(1\)"
    [[ $1 != *'(markup'* ]] ||
      way="rules in $own give such files another style, or a neighbour: see reuse-undo styles"
    printf '%s' "a header at the top may break $1; $way"
  }
  cat > "$line" << 'END'
a.css:charset:@charset "utf-8";\n
a.el:mode line:;;; a.el -*- lexical-binding: t -*-\n
a.md:front matter:---\ntitle: x\n---\n# Head\n
a.php:markup:\n <h1>Hello</h1>\n<?php echo 1;\n
a.rs:inner attribute:#![no_std]\nfn f() {}\n
a.yaml:cloud-config:#cloud-config\nusers: []\n
Dockerfile:directive:# syntax=docker/dockerfile:1\nFROM x\n
END
  while IFS=: read -r name word text; do
    files "$name" "$text" b.py 'x\n'
    notes annotate -l MIT -r . : '2 files changed; .*' "$(breaks "${name/./\\.} \\($word\\)")"
    notes annotate -n -l MIT "$name" : "$(breaks "${name/./\\.} \\($word\\)")"
    # A file that has a header is broken no more, nor one whose neighbour is written
    "$program" --root "$tree" annotate -l MIT "$name" > /dev/null
    notes annotate "${jo[@]}" "$name" : "$changed"
    notes annotate --no-replace "${jo[@]}" "$name" : "$changed"
    notes annotate -l MIT "$name" :
    files "$name" "$text"
    notes annotate --force-dot-license -l MIT "$name" : "$changed"
    "$program" --root "$tree" annotate --force-dot-license -l MIT "$name" > /dev/null
    notes annotate "${jo[@]}" "$name" : "$changed"
  done < "$line"
  # Of several files the first is named, beside a refusal too; a call that is refused tells of none
  files a.md '---\n---\n' b.py 'x\n' c.md '---\n---\n' d.css '@charset "utf-8";\n'
  each='--dry-run --json lists each, with could_break\)'
  word="$(breaks "3 files: a\\.md \\(front matter\\) and 2 more \\(after reuse-undo undo, $each")"
  notes annotate -l MIT -r . : '4 files changed; .*' "$word"
  word="$(breaks "3 files: a\\.md \\(front matter\\) and 2 more \\($each")"
  notes annotate -n --json -l MIT -r . : "$word"
  touch "$tree/e.xyz"
  notes annotate -n -l MIT -r . : 'no comment style is known .*' "$word"
  notes annotate -l MIT -r . : 'no comment style is known .*'
  [[ $("$program" --root "$tree" annotate -n --json -l MIT -r . 2> /dev/null |
    grep -c '^{"could_break":') == 3 ]] || fail 'the objects of a dry run don'\''t list each'
  # A style of the tree's own keeps the lines in front
  files .reuse/styles.toml 'version = 1\n[styles]\n".md" = "markdown"\nDockerfile = "docker"\n' \
    a.md '---\n---\n' Dockerfile '# syntax=docker/dockerfile:1\n' b.css '@charset "utf-8";\n'
  cp "$(dirname "$0")/../share/comments.toml" "$tree/.reuse/"
  notes annotate -l MIT -r . : '3 files changed; .*' "$(breaks 'b\.css \(charset\)')"
  notes annotate -l MIT a.md Dockerfile : '2 files changed; .*'
  # A header below other text, which may be in a string: where it changes
  files a.py 'x = """\n# SPDX-License-Identifier: ISC\n"""\n' \
    b.py '\n# Sums\n\n# SPDX-License-Identifier: ISC\n' c.sh 'cat << E\n# SPDX-License-Identifier: ISC\nE\n'
  word='the header of a\.py stands below other text: it may be in a string'
  notes annotate -l MIT a.py b.py : '2 files changed; .*' "$word"
  notes annotate -n -l MIT a.py b.py : "$word"
  notes annotate -n -l ISC a.py :
  word='the headers of 2 files stand below other text: they may be in strings: a\.py and 1 more'
  word+=" \\($each"
  notes annotate -n -l Zlib a.py b.py c.sh : "$word"
  files a.md '---\n---\n' b.py 'x = 1\n' c.sh 'x\n# SPDX-License-Identifier: ISC\n'
  "$program" --root "$tree" annotate -n --json -l MIT a.md b.py c.sh > "$room/objects" 2> /dev/null
  diff "$room/objects" - << 'END' || fail "the objects of a dry run don't say what could break"
{"could_break":"front matter","outcome":"would change","path":"a.md"}
{"outcome":"would change","path":"b.py"}
{"could_break":"string","outcome":"would change","path":"c.sh"}
END
  files a.php '<?php\necho 1;\n' a.ts '<?xml version="1.0"?>\n' b.html '<p>\n'
  "$program" --root "$tree" annotate -n --json -l MIT -r . > "$room/objects" 2> /dev/null
  diff "$room/objects" - << 'END' || fail "the objects of a dry run don't tell of markup"
{"outcome":"would change","path":"a.php"}
{"could_break":"markup","outcome":"would change","path":"a.ts"}
{"outcome":"would change","path":"b.html"}
END
}

dep5() {
  files .reuse/dep5 'Format: x\n\nFiles: *\nLicense: MIT\n'
  notes convert-dep5 : 'the fields Files, Copyright and License are asked for .*'
  files .reuse/dep5 'Format: x\n\nFiles: *\nCopyright: J\nLicense: MIT\n Text\n\n More\n'
  notes convert-dep5 : "an empty line ends a paragraph: within a licence's text .*"
  files .reuse/dep5 'Format: x\n\nFiles: a?.c\nCopyright: J\nLicense: MIT\n'
  notes convert-dep5 : 'REUSE\.toml has no sign for one character: write \* .*'
  files .reuse/dep5 'Format: x\n\nLicense: MIT\n Text\n'
  notes convert-dep5 : '2 files changed; .*' 'REUSE\.toml says nothing of any file, .*'
  make_dep5 "$tree"
  notes convert-dep5 : '2 files changed; .*'
}

# The journal of two steps, as it was
whole_journal() {
  rm -rf "$tree/.reuse/undo"
  cp -a "$room/whole" "$tree/.reuse/undo"
}

# What a loss of power without syncs, an editor, a later version or a hand may leave of a journal,
# and that the way out is one
journal() {
  local undo=$tree/.reuse/undo out=': put it back from a backup; or delete the folder'
  out+=' \.reuse/undo, which forgets the history and changes no other file'
  files a.py 'x\n' b.py 'x\n'
  "$program" --root "$tree" annotate -l MIT a.py > /dev/null
  "$program" --root "$tree" annotate -l MIT b.py > /dev/null
  cp -a "$undo" "$room/whole"
  : > "$undo/head.json"
  notes log : "\\.reuse/undo/head\\.json is empty, as after a loss of power$out"
  notes recover : "\\.reuse/undo/head\\.json is empty, .*$out"
  whole_journal
  truncate -s 20 "$undo/head.json"
  notes log : "\\.reuse/undo/head\\.json is torn: it breaks off, or is no JSON$out"
  whole_journal
  truncate -s 17M "$undo/head.json"
  notes log : "\\.reuse/undo/head\\.json is longer than such a file can be$out"
  whole_journal
  sed -i 's/"format":2/"format":3/' "$undo/head.json"
  notes log : \
    '\.reuse/undo/head\.json was written by a later version of reuse-undo: use that version'
  whole_journal
  sed -i 's/"next":3/"next":0/' "$undo/head.json"
  notes log : "\\.reuse/undo/head\\.json says what no file of the journal says: .*$out"
  whole_journal
  rm "$undo/000002.json"
  notes log : "\\.reuse/undo/000002\\.json is gone, and the head of the journal names it$out"
  : > "$undo/000002.json"
  notes undo : "\\.reuse/undo/000002\\.json is empty, .*$out"
  rm -rf "$undo"
  notes log :
  echo x > "$undo"
  notes log : '\.reuse/undo is a file, where the folder of the journal is to be: move it away'
  rm "$undo"
  whole_journal
  rm "$undo/head.json"
  local empty='the history was found empty, though \.reuse/undo'
  notes log : "$empty"' has the files of 2 steps: the head of the journal is gone; .*'
  notes annotate -c Jo -y 2024 a.py : 'the history was found empty, though .*' '1 file changed; .*'
  rm "$undo/000002.json"
  notes log : 'the history was found empty, though \.reuse/undo/000001\.json is there: .*'
}

# What standard output and standard error show of a call, where the one that is named is a terminal
at_terminal() {
  local stream=$1
  shift
  case $stream in
    output) script -qc "$(spelt_call "$@") 2> $room/other" /dev/null < /dev/null | told ;;
    error) script -qc "$(spelt_call "$@") > $room/other" /dev/null < /dev/null | told ;;
  esac
}

# What is told of these words has no control byte at a terminal, but for line ends.
words_at_terminal() {
  at_terminal error "$@" > "$room/shown"
  grep -qF 'a\x1B[31m\x7F' "$room/shown" || fail "$1 at a terminal: $(cat -v "$room/shown")"
  ! grep -q '[[:cntrl:]]' "$room/shown" || fail "$1 at a terminal: $(cat -v "$room/shown")"
}

# A name with control bytes is shown without them on a terminal, and as it is elsewhere.
names() {
  local name=$'a\033[31m\177\n\303\274.py' shown='a\x1B[31m\x7F\x0Aü.py' found
  files "$name" 'x\n'
  [[ $("$program" --root "$tree" annotate -l MIT -n -r .) == "would change $name" ]] ||
    fail 'a pipe: not the name as it is'
  found=$(at_terminal output annotate -l MIT -n -r .)
  [[ $found == "would change $shown" ]] || fail "a dry run at a terminal: $found"
  found=$(at_terminal output annotate -l MIT -r .)
  [[ $found == "changed $shown" ]] || fail "a step at a terminal: $found"
  found=$(at_terminal output show 1 | tail -n +2)
  [[ $found == "changed $shown" ]] || fail "show at a terminal: $found"
  found=$(at_terminal output undo -n --json)
  [[ $found == *'a\u001b[31m\u007f\n'* ]] || fail "JSON at a terminal: $found"
  echo y >> "$tree/$name"
  ! found=$("$program" --root "$tree" undo 2>&1) || fail 'an undo of a file that was edited'
  [[ $found == "reuse-undo: $name: moved" ]] || fail "a refusal in a pipe: $found"
  found=$(at_terminal error undo | head -n 1)
  [[ $found == "reuse-undo: $shown: moved" ]] || fail "a refusal at a terminal: $found"
  at_terminal output undo > /dev/null
  [[ $(< "$room/other") == "reuse-undo: $name: moved" ]] ||
    fail "a refusal in a file: $(cat "$room/other")"
  at_terminal error revert 1 > /dev/null
  [[ $(< "$room/other") == "changed $name" ]] || fail "a line in a file: $(cat "$room/other")"
  # Also where a name is taken for an option, as one of `*` may be, and in all that is told of one
  words_at_terminal annotate -l MIT "--$name"
  words_at_terminal annotate -l MIT --style "$name" a.py
  words_at_terminal annotate -l MIT "/$name"
  words_at_terminal annotate -l MIT -r --exclude "/$name" .
  words_at_terminal annotate -l MIT -r --files-from "$name" .
  words_at_terminal annotate -l MIT "no$name"
  words_at_terminal download --texts "$name" MIT
}

# A link, a name, a root and a limit that keep the store from its work
faults() {
  local found=0
  files a.py 'x\n' $'\377.py' 'x\n'
  notes annotate -l MIT -r . : "can't list \.: .*"
  files a.py 'x\n' in/b.py 'x\n' in/$'\377.py' 'x\n'
  notes annotate -l MIT -r . : "can't list in: .*"
  files p.png '\0211'
  ln -s nowhere "$tree/p.png.license"
  notes annotate -l MIT p.png : "can't write p\.png\.license: a link, .*" \
    'the next call on this tree, log too, takes back what was begun'
  files a.py 'x\n'
  ln -s nowhere "$tree/.reuse"
  notes annotate -l MIT a.py : "can't write \.reuse/undo/000001\.json: a link, .*"
  "$program" -v --root "$room/absent" log 2> "$room/error" || found=$?
  [[ $found == 1 ]] || fail "a root that is absent: status $found"
  printf '%s\n' 'reuse-undo: store fault' \
    "reuse-undo: note: can't read .reuse: No such file or directory (os error 2)" \
    "reuse-undo: note: there is no folder $room/absent" |
    cmp -s - "$room/error" || fail "a root that is absent: $(cat "$room/error")"
  files a.py 'x\n' b.py ''
  head -c 100000 /dev/zero | tr '\0' x > "$tree/b.py"
  (trap '' XFSZ && ulimit -f 64 && exec "$program" -v --root "$tree" annotate -l MIT -r .) \
    2> "$room/error" || true
  printf '%s\n' 'reuse-undo: interrupted' \
    "reuse-undo: note: can't write b.py: File too large (os error 27)" \
    'reuse-undo: note: the next call on this tree, log too, takes back what was begun' |
    cmp -s - "$room/error" || fail "a limit: $(cat "$room/error")"
  is_pending "$tree" || fail 'no step is under way'
  notes log : 'step 1, which a stopped run had begun, was set back \(1 file\)'
  notes annotate -l MIT a.py : 'step 1, which a stopped run had begun, was set back \(1 file\)' \
    '1 file changed; .*'
  echo yyy > "$tree/a.py"
  local changed='a stopped run had begun to change this file, and it was changed since'
  notes log : "$changed: .*reuse-undo recover --skip-moved, which leaves it as it is .*"
  notes recover : "$changed: with --skip-moved it is left as it is, .*"
  rm "$tree/a.py"
  local gone='a stopped run had begun to change this file, and it is gone'
  notes log : "$gone: .*reuse-undo recover --skip-moved, which leaves it out .*"
  notes recover : "$gone: with --skip-moved it is left out, .*"
  notes=$((notes + 3))
}

above() {
  local root=$tree
  files a.py 'x\n' in/deep/b.py 'x\n'
  "$program" --root "$tree" annotate -l MIT a.py > /dev/null
  tree=$root/in/deep
  local note="a folder above has a journal too: with --root $root a call uses that one, and PATHs"
  note+=' start there'
  local begun='this call began a second journal: reuse-undo undo takes the call back;'
  begun+=' then delete \.reuse/undo here, and \.reuse if it is empty'
  notes undo : "$note"
  notes annotate -n -l MIT b.py : "$note"
  notes annotate -l MIT b.py : '1 file changed; .*' "$note" "$begun"
  # What the notes say leads back to the journal above
  "$program" --root "$tree" annotate -l MIT b.py > /dev/null
  notes annotate -l ISC b.py : '1 file changed; .*' "$note"
  "$program" --root "$tree" undo > /dev/null
  rm -r "$tree/.reuse/undo"
  rmdir "$tree/.reuse"
  tree=$root
  [[ $("$program" --root "$tree" annotate -l MIT in/deep/b.py) == 'changed in/deep/b.py' ]] ||
    fail 'the journal above is not used'
  notes log :
}

# A call is held for over a second at a terminal, in the middle of its files, and its lines of
# progress are looked at: what they say is this pattern, they never count more than there is, and
# they are cleared.
held() {
  local pattern=$1 renames=rename,renameat,renameat2 call run read listed written
  shift
  call=$(spelt strace -f -qq -o "$room/trace" -e "trace=$renames" \
    -e "inject=$renames:delay_enter=1200000:when=100" "$program" --root "$tree" "$@")
  script -qec "$call > $room/out" "$room/typed" < /dev/null > /dev/null
  run=$(tr '\r' '\n' < "$room/typed" | grep -E '^[0-9]+ (files )?read') || fail "$1: no progress"
  ! grep -vE "^$pattern" <<< "$run" || fail "$1: the progress is $run"
  grep -qE $'^\033\\[K' < <(tr '\r' '\n' < "$room/typed") || fail "$1: the progress is not cleared"
  while read -r read _ _ _ listed _ written _; do
    ((read <= listed && written <= listed && listed == 4000)) ||
      fail "$1: more files than there are: $run"
  done < <(grep -oE '^[0-9]+ files read of [0-9]+ listed, [0-9]+ written' <<< "$run")
}

progress() {
  local listed='[0-9]+ files read of [0-9]+ listed, [0-9]+ written'
  local calls='[0-9]+ reads, [0-9]+ writes'
  files
  for ((i = 0; i < 2000; i++)); do
    echo x > "$tree/$i.py"
    printf '\0211' > "$tree/$i.png"
  done
  held "$listed" annotate -l MIT -r .
  [[ $(wc -l < "$room/out") == 4000 ]] || fail 'not all files are changed'
  held "$calls" undo
  held "$calls" redo
  (cd "$tree" && held "$calls" annotate -l ISC *.png)
  ! "$program" --root "$tree" -v undo 2>&1 > /dev/null | grep -qE 'files read|reads' ||
    fail 'progress without a terminal'
}

for group in words changes refusals ready once choices left harms dep5 journal faults above names \
  progress; do
  $group
done
echo "$notes notes are as stated, with -v and at a terminal, and names show no control byte there"
