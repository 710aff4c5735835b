#!/usr/bin/env bash
# Amends trees: worked examples (amend/examples.txt); random trees and options against the rules
# told once more (amend/retelling.py, amend/left.py), each taken back and made again byte for byte;
# folders, lists, globs, refusals, diffs, JSON and statuses; what is left, as grep finds it; and
# four tasks on 600 files, which Debian's reuse judges if it is installed: another licence, another
# name of a holder, years of one holder, a contributor removed.
# TREES: how many random trees (300). SEED: the number of the first (1).
# usage: tests/amend.sh PROGRAM
# The tags below are data: REUSE-IgnoreStart
set -euo pipefail
. "$(dirname "$0")/common.sh"
wants python3 python3
here=$(realpath "$(dirname "$0")")/amend
export PYTHONDONTWRITEBYTECODE=1
tree=$room/tree
mit='# SPDX-License-Identifier: MIT\n' isc='# SPDX-License-Identifier: ISC\n'

told() { answer_of amend "$@"; }

has_line() { grep -qxF -- "$2" "$1" || fail "no line $2: $(< "$1")"; }

holds() { [[ $(printf %b "$2") == "$(< "$tree/$1")" ]] || fail "$1 holds $(< "$tree/$1")"; }

# Which files are taken, and what is refused
calls() {
  local change=(--replace-license MIT ISC)
  files a.py "$mit" src/b.py "$mit" src/deep/c.py "$mit" build/d.py "$mit" e.xyz "$mit"
  is "$(told "${change[@]}" a.py e.xyz)" \
    $'changed a.py\nleft e.xyz\nstatus 0' 'given files'
  holds a.py "$isc"
  is "$(told "${change[@]}" a.py)" $'nothing changed\nstatus 0' 'the same call again'
  is "$("$program" --root "$tree" log | sed -E 's/ [0-9-]{10} / DATE /')" \
    '1 DATE amend 1 done' 'the log'
  is "$("$program" --root "$tree" show 1 | tail -n 1)" 'changed a.py' 'the step'
  is "$(told "${change[@]}" src)" \
    $'reuse-undo: src: is a folder\nstatus 1' 'a folder without --recursive'
  is "$(told "${change[@]}" src/b.py none.py)" \
    $'reuse-undo: none.py: no such path\nstatus 1' 'a path that is not there'
  is "$(told "${change[@]}" -r src --exclude deep --exclude '**/deep')" \
    $'changed src/b.py\nstatus 0' 'a glob'
  is "$(printf 'src/deep/c.py\nbuild/none.py\n' | told "${change[@]}" -r --files-from - .)" \
    $'changed src/deep/c.py\nstatus 0' 'a list'
  is "$(told "${change[@]}" -r . --style python --dry-run)" \
    "$(printf '%s\n' 'unchanged a.py' 'would change build/d.py' 'would change e.xyz' \
      'unchanged src/b.py' 'unchanged src/deep/c.py' 'status 0')" 'a dry run'
  is "$(told "${change[@]}" --check build/d.py)" $'would change build/d.py\nstatus 1' 'a check'
  is "$(told "${change[@]}" --check a.py)" $'unchanged a.py\nstatus 0' 'a check without a change'
  is "$(told "${change[@]}" --dry-run --json build/d.py)" \
    $'{"outcome":"would change","path":"build/d.py"}\nstatus 0' 'JSON'
  is "$(told --remove-license MIT --dry-run --json build/d.py)" \
    "$(printf '%s\n' \
      '{"outcome":"refused","path":"build/d.py","reason":"build/d.py: nothing left"}' \
      'reuse-undo: build/d.py: nothing left' 'status 1')" 'JSON of a refusal'
  told "${change[@]}" --dry-run --diff build/d.py > "$room/diff"
  has_line "$room/diff" '-# SPDX-License-Identifier: MIT'
  has_line "$room/diff" '+# SPDX-License-Identifier: ISC'
  is "$(told "${change[@]}" --exit-non-zero-on-change build/d.py)" \
    $'changed build/d.py\nstatus 1' 'a status for a change'
  is "$(told "${change[@]}" --exit-non-zero-on-change build/d.py)" \
    $'nothing changed\nstatus 0' 'a status without a change'
  # One refused file leaves the others.
  files a.py "$mit" b.py "$mit${isc}" c.py '# SPDX-License-Identifier: MIT WITH x\n'
  is "$(told --remove-license MIT -r .)" $'reuse-undo: a.py: nothing left\nstatus 1' 'nothing left'
  is "$(told --replace-license MIT 'ISC OR 0BSD' -r .)" \
    $'reuse-undo: c.py: bad licence expression\nstatus 1' 'a bad expression'
  holds b.py "$mit$isc"
  # A revert takes the amendment out of a file that was edited below it.
  files a.py "$mit\nx = 1\n"
  is "$(told "${change[@]}" a.py)" $'changed a.py\nstatus 0' 'before an edit'
  echo 'y = 2' >> "$tree/a.py"
  "$program" --root "$tree" revert 1 > "$room/told" || fail 'revert of an amendment'
  holds a.py "$mit\nx = 1\ny = 2\n"
}

# Each REUSE.toml: given, beneath a folder, listed and left out
tables() {
  local change=(--replace-license MIT ISC)
  local head='version = 1 # MIT\n[[annotations]]\npath = "**" # "MIT"\n'
  local table=$head'SPDX-License-Identifier = "MIT" # one\n'
  local new=$head'SPDX-License-Identifier = "ISC" # one\n'
  files REUSE.toml "$table" a.py "$mit" src/REUSE.toml "$table" src/b.py "$mit"
  cp "$tree/REUSE.toml" "$room/table"
  is "$(told "${change[@]}" -r . --dry-run)" "$(printf '%s\n' 'would change REUSE.toml' \
    'would change a.py' 'would change src/REUSE.toml' 'would change src/b.py' 'status 0')" \
    'a dry run with tables'
  told "${change[@]}" --dry-run --diff REUSE.toml > "$room/diff"
  has_line "$room/diff" '-SPDX-License-Identifier = "MIT" # one'
  has_line "$room/diff" '+SPDX-License-Identifier = "ISC" # one'
  cmp "$tree/REUSE.toml" "$room/table" || fail 'a dry run changes the table'
  is "$(told "${change[@]}" REUSE.toml)" $'changed REUSE.toml\nstatus 0' 'a table that is given'
  holds REUSE.toml "$new"
  is "$(told "${change[@]}" REUSE.toml)" $'nothing changed\nstatus 0' 'a table, once more'
  "$program" --root "$tree" undo > "$room/out"
  cmp "$tree/REUSE.toml" "$room/table" || fail 'the table is not taken back'
  "$program" --root "$tree" redo > "$room/out"
  holds REUSE.toml "$new"
  "$program" --root "$tree" undo > "$room/out"
  is "$(told "${change[@]}" -r src --exclude src/REUSE.toml)" \
    $'changed src/b.py\nstatus 0' 'a table of a folder that a glob leaves out'
  is "$(told "${change[@]}" -r src)" $'changed src/REUSE.toml\nstatus 0' 'a folder with a table'
  holds src/REUSE.toml "$new"
  cmp "$tree/REUSE.toml" "$room/table" || fail 'the table above the folder changed'
  "$program" --root "$tree" undo > "$room/out"
  cmp "$tree/src/REUSE.toml" "$room/table" || fail 'the table of a folder is not taken back'
  is "$(told "${change[@]}" -r . --exclude '**/REUSE.toml' --exclude '*.py')" \
    $'nothing changed\nstatus 0' 'tables that a glob leaves out'
  is "$(echo a.py | told "${change[@]}" -r --files-from - .)" \
    $'changed a.py\nstatus 0' 'a list without the table'
  is "$(printf 'REUSE.toml\nsrc/gone.py\n' | told "${change[@]}" -r --files-from - .)" \
    $'changed REUSE.toml\nstatus 0' 'a list with the table'
  holds src/REUSE.toml "$table"
  is "$(told "${change[@]}" src/REUSE.toml)" \
    $'changed src/REUSE.toml\nstatus 0' 'a table of a folder that is given'
  holds src/REUSE.toml "$new"
  files LICENSES/REUSE.toml "$table" .reuse/REUSE.toml "$table"
  is "$(told "${change[@]}" -r .)" $'nothing changed\nstatus 0' 'tables where no file is covered'
  is "$(told "${change[@]}" LICENSES/REUSE.toml)" \
    $'reuse-undo: LICENSES/REUSE.toml: not covered\nstatus 1' 'a table among licence texts'
  files REUSE.toml "$table" src/REUSE.toml "$table"
  is "$("$program" --root "$tree" annotate -l MIT REUSE.toml 2>&1)" \
    'reuse-undo: REUSE.toml: not covered' 'annotate of a table'
  is "$(told "${change[@]}" -r REUSE.toml)" \
    $'changed REUSE.toml\nstatus 0' 'a table with --recursive'
  holds src/REUSE.toml "$table"
  # What can't be amended leaves all as it is.
  files src/REUSE.toml 'x\n' a.py "$mit"
  is "$(told "${change[@]}" -r .)" \
    $'reuse-undo: src/REUSE.toml: cannot be amended\nstatus 1' 'a table below that is no TOML'
  holds a.py "$mit"
  files REUSE.toml '[[annotations]]\nSPDX-License-Identifier = """\nMIT"""\n' a.py "$mit"
  is "$(told "${change[@]}" -r .)" \
    $'reuse-undo: REUSE.toml: cannot be amended\nstatus 1' 'a string over lines'
  holds a.py "$mit"
  is "$(told "${change[@]}" a.py)" $'changed a.py\nstatus 0' 'a file beside such a table'
  files REUSE.toml 'x\n' a.py "$mit"
  is "$(told "${change[@]}" REUSE.toml)" \
    $'reuse-undo: REUSE.toml: cannot be amended\nstatus 1' 'a table that is no TOML'
  files REUSE.toml/a.py "$mit"
  is "$(told "${change[@]}" -r .)" $'changed REUSE.toml/a.py\nstatus 0' 'a folder of that name'
}

# What is left: lines behind all others, objects and statuses. A path that would be left counts for
# the status of a check, and one that was left for none.
left() {
  local change=(--replace-license MIT ISC) lines object path
  local header='// SPDX-License-Identifier: MIT\n'
  local notice='/*\n * SPDX-License-Identifier: MIT\n */\n'
  local neighbour='SPDX-License-Identifier: MIT\n'
  files a.c "$header$notice" b.py "$isc" p.png '\0211PNG' \
    p.png.license "${neighbour}SPDX-SnippetBegin\n$neighbour" script "$mit" z.py "$mit"
  lines=$(printf '%s\n' 'would change a.c' 'unchanged b.py' 'would change p.png.license' \
    'unchanged script' 'would change z.py' 'would leave a.c' 'would leave p.png' \
    'would leave script')
  is "$(told "${change[@]}" -r . -n)" "$lines"$'\nstatus 0' 'a dry run with files that are left'
  is "$(told "${change[@]}" -r . --check)" "$lines"$'\nstatus 1' 'a check'
  told "${change[@]}" -r . -n --diff > "$room/diff"
  is "$(sed '/^diff --git /,$d' "$room/diff")" "$lines" 'the lines in front of a diff'
  is "$(tail -n 1 "$room/diff")" 'status 0' 'a diff with files that are left'
  is "$(told "${change[@]}" script b.py -n)" \
    $'unchanged b.py\nunchanged script\nwould leave script\nstatus 0' 'a dry run of no change'
  for path in --check '-n --exit-non-zero-on-change'; do
    # shellcheck disable=SC2086
    is "$(told "${change[@]}" script b.py $path)" \
      $'unchanged b.py\nunchanged script\nwould leave script\nstatus 1' "$path of no change"
  done
  is "$(told "${change[@]}" --check b.py)" $'unchanged b.py\nstatus 0' 'a check of none'
  is "$(told "${change[@]}" --check -r . --exclude '*.c' --exclude script --exclude p.png \
    --exclude z.py)" $'unchanged b.py\nstatus 0' 'a check without what is excluded'
  object='{"outcome":"left","path":"script"}'
  is "$(told "${change[@]}" script -n --json)" \
    $'{"outcome":"unchanged","path":"script"}\n'"$object"$'\nstatus 0' 'objects'
  is "$(told "${change[@]}" script z.py --check --json)" \
    "$(printf '%s\n' '{"outcome":"unchanged","path":"script"}' \
      '{"outcome":"would change","path":"z.py"}' "$object" 'status 1')" 'objects of a check'
  # A refused path isn't left, and in a dry run the others are.
  "$program" --root "$tree" amend --remove-license MIT -r . -n > "$room/out" 2> "$room/error" &&
    fail 'status 0 of a refusal'
  is "$(< "$room/out")" $'unchanged b.py\nunchanged script\nwould leave script' \
    'lines beside refusals'
  is "$(< "$room/error")" "$(printf 'reuse-undo: %s: nothing left\n' a.c p.png z.py)" 'refusals'
  is "$(told --remove-license MIT -r .)" $'reuse-undo: a.c: nothing left\nstatus 1' 'a refusal'
  # A run, and the same once more
  lines=$(printf '%s\n' 'left a.c' 'left p.png' 'left script')
  is "$(told "${change[@]}" -r .)" \
    "$(printf '%s\n' 'changed a.c' 'changed p.png.license' 'changed z.py' "$lines" 'status 0')" \
    'a run that leaves files'
  holds a.c "// SPDX-License-Identifier: ISC\n$notice"
  is "$(told "${change[@]}" -r . --exit-non-zero-on-change)" \
    $'nothing changed\n'"$lines"$'\nstatus 0' 'the status of files that are left'
  is "$("$program" --root "$tree" undo)" \
    $'undone a.c\nundone p.png.license\nundone z.py' 'an undo after it'
  is "$(told "${change[@]}" -r . --exit-non-zero-on-change | tail -n 1)" 'status 1' 'a change'
  is "$("$program" --root "$tree" show 2 | tail -n +2)" \
    $'changed a.c\nchanged p.png.license\nchanged z.py' 'the step has no file that is left'
  # With a style of its own the script is no longer left.
  is "$(told "${change[@]}" --style python script)" $'changed script\nstatus 0' 'a style'
  # What names nothing leaves nothing, and no other command does.
  is "$(told --until 2026 --holder A -r .)" $'nothing changed\nstatus 0' 'years alone'
  files script "$mit" a.py "$mit"
  is "$("$program" --root "$tree" annotate -l ISC --skip-unrecognised -r .)" 'changed a.py' \
    'another command'
  # Files of over 16 MiB are not read to their end.
  { printf %b "$mit" && head -c 16777216 /dev/zero | tr '\0' x; } > "$tree/long"
  is "$(told "${change[@]}" long script)" \
    $'nothing changed\nleft script\nstatus 0' 'a file that is too long'
}

# Metadata, and the notes of refusals
metadata() {
  local line
  files a.py "$mit"
  make_dep5 "$tree"
  is "$(told --until 2026 .reuse/dep5)" $'reuse-undo: .reuse/dep5: not covered\nstatus 1' 'a dep5'
  "$program" --root "$tree" -v amend --until 2026 .reuse/dep5 > "$room/told" 2>&1 || true
  grep -q '^reuse-undo: note: .*convert-dep5' "$room/told" ||
    fail "the note of a dep5: $(< "$room/told")"
  "$program" --root "$tree" -v amend --remove-license MIT a.py > "$room/told" 2>&1 || true
  grep -q '^reuse-undo: note: neither a licence' "$room/told" ||
    fail "the note of nothing left: $(< "$room/told")"
  is "$(told --until 2026 -r .)" $'nothing changed\nstatus 0' 'a dep5 beneath a folder'
  files a.proto '// SPDX-License-Identifier: MIT\n' \
    .reuse/styles.toml 'version = 1\n[styles]\n".proto" = "c"\n'
  is "$(told --replace-license MIT ISC -r .)" $'changed a.proto\nstatus 0' "the tree's own styles"
  files a.py "$mit" .reuse/styles.toml 'version = 2\n'
  is "$(told --replace-license MIT ISC a.py)" \
    $'reuse-undo: .reuse/styles.toml: bad styles\nstatus 1' 'bad styles'
}

# A tree of 600 files with headers and neighbours, which reuse calls compliant
make_tree() {
  python3 - "$1" << 'PYTHON'
import os
import sys

root = sys.argv[1]
names = ["a.py", "b.c", "c.css", "d.html", "e.lua", "f.el", "g.ml", "h.png"]
marks = [("# ", None), ("// ", None), (" * ", ("/*", " */")), ("", ("<!--", "-->")), ("-- ", None),
         (";; ", None), (" * ", ("(*", " *)")), ("", None)]
for number in range(600):
    kind = number % len(names)
    lead, block = marks[kind]
    licence = ["GPL-2.0", "MIT", "GPL-2.0 OR MIT", "MIT AND (GPL-2.0 OR MIT)"][number // 8 % 4]
    tags = [f"SPDX-FileCopyrightText: {2000 + number % 20} Jane Doe",
            f"SPDX-FileCopyrightText: {2010 + number % 10} Other Corp"]
    if number % 3:
        tags.append("SPDX-FileContributor: Joe Bloggs")
    lines = [lead + text for text in tags + [f"SPDX-License-Identifier: {licence}"]]
    lines = [block[0]] + lines + [block[1]] if block else lines
    text = "".join(line + "\n" for line in lines)
    folder = os.path.join(root, f"part{number % 25}")
    os.makedirs(folder, exist_ok=True)
    name = os.path.join(folder, f"{number}{names[kind]}")
    if names[kind].endswith(".png"):
        with open(name + ".license", "w") as out:
            out.write(text)
        text = "\x89PNG"
    with open(name, "w") as out:
        out.write(text + ("\nbody\n" if text.strip() else ""))
os.makedirs(os.path.join(root, "LICENSES"))
for licence in "GPL-2.0", "MIT":
    with open(os.path.join(root, "LICENSES", licence + ".txt"), "w") as out:
        out.write("The text.\n")
PYTHON
}

# How many files of the tree, without licence texts, have a line with this pattern
count() {
  { grep -rlE --exclude-dir=LICENSES --exclude-dir=.reuse -- "$1" "$tree" || true; } | wc -l
}

sums() {
  (cd "$tree" && find . -path ./.reuse -prune -o -type f -print0 | sort -z | xargs -0 sha256sum)
}

lints=0
# Debian's reuse calls the tree compliant, where it is installed
lint() {
  command -v reuse > /dev/null || return 0
  (cd "$tree" && LC_ALL=C.UTF-8 reuse lint) > "$room/lint" 2>&1 ||
    fail "$1: $(tail -n 30 "$room/lint")"
  lints=$((lints + 1))
}

# A task on the tree: its name, how many files change, the pattern that has to be gone, the one that
# has to be in as many files, and the options
task() {
  local name=$1 changed=$2 gone=$3 found=$4
  shift 4
  sums > "$room/before"
  told "$@" -r . > "$room/changed"
  is "$(tail -n 1 "$room/changed")" 'status 0' "$name"
  is "$(grep -c '^changed ' "$room/changed")" "$changed" "$name, files changed"
  ! grep -q '^left ' "$room/changed" || fail "$name leaves files"
  is "$(count "$gone")" 0 "$name, files with $gone"
  (($(count "$found") >= changed)) || fail "$name: $found is in $(count "$found") files"
  sums > "$room/after"
  "$program" --root "$tree" undo > "$room/out"
  sums | cmp - "$room/before" || fail "$name isn't taken back"
  "$program" --root "$tree" redo > "$room/out"
  sums | cmp - "$room/after" || fail "$name isn't made again"
}

tasks() {
  rm -rf "$tree"
  make_tree "$tree"
  task 'another licence' 448 'GPL-2\.0([ )]|$)' 'GPL-2\.0-or-later' \
    --replace-license GPL-2.0 GPL-2.0-or-later
  mv "$tree/LICENSES/GPL-2.0.txt" "$tree/LICENSES/GPL-2.0-or-later.txt"
  lint 'another licence'
  task 'another name of a holder' 600 'Other Corp' 'New Corp' \
    --replace-holder 'Other Corp' 'New Corp'
  lint 'another name of a holder'
  task 'years of one holder' 600 '[^-] 20[0-9]{2} Jane Doe' '20[0-9]{2} - 2026 Jane Doe' \
    --until 2026 --holder 'Jane Doe'
  is "$(count '2026 New Corp')" 0 'years of another holder'
  lint 'years of one holder'
  task 'a contributor' 400 'Joe Bloggs|FileContributor' '2026 Jane Doe' \
    --remove-contributor 'Joe Bloggs'
  lint 'a contributor'
}

# A tree of 600 files whose second tags stand below headers, behind code, in files without a style
# and in neighbours: those that are left are those in which grep finds the licence.
leaving() {
  rm -rf "$tree"
  python3 - "$tree" << 'PYTHON'
import os
import sys

root = sys.argv[1]
forms = [
    ("a.c", "// {one}\n/*\n * {two}\n */\nint x;\n"),
    ("b.py", "# {one}\n\nx = 1  # {two}\n"),
    ("c.html", "<!--\n{one}\n-->\n<p title='{two}'>\n"),
    ("script", "#!/bin/sh\n# {one}\n\n# {two}\n"),
    ("d.csv", "{one}\n{two}\n"),
    ("e.png.license", "{one}\nSPDX-SnippetBegin\n{two}\nSPDX-SnippetEnd\n"),
]
licences = ["GPL-2.0", "MIT", "GPL-2.0 OR MIT", "GPL-2.0-only", "MIT AND (GPL-2.0 OR ISC)", "0BSD"]
for number in range(600):
    name, text = forms[number % 6]
    tags = ["SPDX-License-Identifier: " + licences[number // k % 6] for k in (6, 36)]
    path = os.path.join(root, f"part{number % 7}", f"{number}{name}")
    os.makedirs(os.path.dirname(path), exist_ok=True)
    with open(path, "w") as out:
        out.write(text.format(one=tags[0], two=tags[1]))
    if name == "e.png.license":
        with open(path[: -len(".license")], "wb") as out:
            out.write(b"\x89PNG")
PYTHON
  told --replace-license GPL-2.0 GPL-2.0-or-later -r . > "$room/changed"
  (cd "$tree" && grep -rlE --exclude-dir=.reuse "GPL-2\.0([ )'>]|\$)" .) |
    sed 's/^\.\///; s/\.license$//' | LC_ALL=C sort > "$room/found"
  sed -n 's/^left //p' "$room/changed" > "$room/left"
  diff "$room/found" "$room/left" > "$room/differ" || fail "what is left: $(< "$room/differ")"
  (($(wc -l < "$room/left") >= 200)) || fail 'few files are left'
  (($(grep -c '^changed ' "$room/changed") >= 200)) || fail 'few files are changed'
}

examples=$(python3 "$here/examples.py" "$program" "$room" "$here/examples.txt") || fail "$examples"
calls
tables
left
metadata
tasks
leaving
random=$(python3 "$here/random_trees.py" "$program" "$room" "${TREES:-300}" "${SEED:-1}") ||
  fail "$random"
echo "$examples; four tasks on 600 files, of which reuse judged $lints times;" \
  "of 600 more $(wc -l < "$room/left") are left, as grep says;" \
  "random trees: $random"
