#!/usr/bin/env bash
# Runs worked command lines on folders, and compares what is told, the status, and each file that is
# left, byte for byte: headers, the places that are written, lines that change nothing, replies,
# limits, rows, dry runs, and steps that are shown and reverted. What annotate changes is undone and
# redone. Words are run in the tree, without --root. Ends with status 1 at the first fault. Options
# and faults of words: options.sh.
# usage: tests/worked_lines.sh PROGRAM
# The tags below are data: REUSE-IgnoreStart
set -euo pipefail
shopt -s globstar dotglob nullglob extglob
. "$(dirname "$0")/common.sh"
tree=$room/tree
tag='SPDX-License-Identifier: MIT\n'
tagged="# $tag\nx\n"
calls=0 written=0 unchanged=0

# The files of a tree outside of the journal, by their names and bytes
files_of() {
  (
    local name names=()
    cd "$1" || exit
    for name in **; do [[ ! -f $name || $name == .reuse/undo/* ]] || names+=("$name"); done
    ((${#names[@]} == 0)) || sha256sum -- "${names[@]}"
  )
}

# The same for these files, each by its path and its text with escapes; the last of a path counts
sums_of() {
  tree=$room/wanted files "$@"
  files_of "$room/wanted"
}

# The tree has just the files of these sums.
has_just() {
  [[ $(files_of "$tree") == "$2" ]] || fail "$1: files are $(files_of "$tree"), not $2"
}

# Runs the program in the tree with words that `|` separates; `status`, `out` and `error` are what
# comes of it.
run() {
  local words
  IFS='|' read -ra words <<< "$1|"
  status=0
  (cd "$tree" && exec "$program" "${words[@]}") > "${2:-$room/out}" 2> "$room/error" || status=$?
  IFS= read -rd '' out < "$room/out" || :
  IFS= read -rd '' error < "$room/error" || :
  calls=$((calls + 1))
}
differs() { fail "$1: status $status, it prints ${out@Q} and tells ${error@Q}"; }

# The words end with this status and tell just this text with escapes: with status 0 on standard
# output, else on standard error.
tells() {
  local text
  printf -v text %b "$3"
  run "$1"
  if (($2)); then
    [[ $status == "$2" && ! $out && $error == "reuse-undo: $text"$'\n' ]] || differs "$1"
  else
    [[ $status == 0 && $out == "$text" && ! $error ]] || differs "$1"
  fi
}

# clap refuses the words with a text that has this one.
refuses() {
  run "$1"
  [[ $status == 2 && ! $out && $error == 'error: '*"$2"* ]] || differs "$1"
}

# The words behind `annotate` change files or make others: `writes WORDS OLD... to NEW...`. That is
# undone and redone.
writes() {
  local line="annotate|$1" old=() lines='' before after i
  shift
  while [[ $1 != to ]]; do
    old+=("$1" "$2")
    shift 2
  done
  shift
  for ((i = 1; i < $#; i += 2)); do lines+="changed ${!i}\n"; done
  files "${old[@]}"
  before=$(files_of "$tree")
  after=$(sums_of "${old[@]}" "$@")
  tells "$line" 0 "$lines"
  has_just "$line" "$after"
  tells undo 0 "${lines//changed /undone }"
  has_just "undo of $line" "$before"
  tells redo 0 "${lines//changed /redone }"
  has_just "redo of $line" "$after"
  written=$((written + 1))
}

# The words behind `annotate` end with this status and text, and change nothing:
# `stays WORDS STATUS TEXT FILES...`.
stays() {
  local before
  files "${@:4}"
  before=$(files_of "$tree")
  tells "annotate|$1" "$2" "$3"
  has_just "$1" "$before"
  unchanged=$((unchanged + 1))
}

# The words become these bytes of a file: `header WORDS PATH OLD NEW`. Once more they change
# nothing.
header() {
  writes "$1|$2" "$2" "$3" to "$2" "$4"
  tells "annotate|$1|$2" 0 'nothing changed\n'
  has_just "$1|$2, once more" "$(sums_of "$2" "$4")"
}

headers() {
  # Each line ends as the file's first one does.
  header '-c|Jane Doe|-y|2024|-l|MIT' run.sh '#!/bin/sh\r\necho\r\n' \
    '#!/bin/sh\r\n\r\n# SPDX-FileCopyrightText: 2024 Jane Doe\r\n#\r\n# SPDX-License-Identifier: MIT\r\n\r\necho\r\n'
  header '-l|ISC' m.py '# SPDX-License-Identifier: MIT\r\n# y\nx\n' \
    '# SPDX-License-Identifier: ISC\r\n# SPDX-License-Identifier: MIT\r\n#\r\n# y\r\nx\n'
  # A byte order mark stays in front.
  header '-l|MIT' m.py '\xEF\xBB\xBFx = 1' '\xEF\xBB\xBF# SPDX-License-Identifier: MIT\n\nx = 1'
  header '-l|MIT' e.py '' "# $tag"
  header '-c|Jane Doe|-y|2024' k.h '/* SPDX-License-Identifier: GPL-2.0 */\nint a;\n' \
    '/*\n * SPDX-FileCopyrightText: 2024 Jane Doe\n *\n * SPDX-License-Identifier: GPL-2.0\n */\nint a;\n'
  header '-c|A --> B|-y|2024' a.py 'x\n' '# SPDX-FileCopyrightText: 2024 A --> B\n\nx\n'
  header '-c|Jane Doe|-y|2024|-l|MIT' i.html '<p>\n' \
    "<!--\nSPDX-FileCopyrightText: 2024 Jane Doe\n\n$tag-->\n\n<p>\n"
  # The other lines of a block are kept.
  header '-c|Jane Doe|-y|2024' n.py '# Tool.\n#\n# SPDX-License-Identifier: MIT\n# More.\nx\n' \
    '# SPDX-FileCopyrightText: 2024 Jane Doe\n#\n# SPDX-License-Identifier: MIT\n#\n# Tool.\n#\n# More.\nx\n'
  # Behind a barrier there is no block.
  header '-l|ISC' s.py "# REUSE-IgnoreStart\n# $tag" \
    "# SPDX-License-Identifier: ISC\n\n# REUSE-IgnoreStart\n# $tag"
  header '-c|Jane Doe|--exclude-year|--copyright-prefix|string-c' a.py 'x\n' \
    '# Copyright (C) Jane Doe\n\nx\n'
  # Two years of one holder, merged and not.
  header '-l|ISC|--merge-copyrights' a.py \
    '# SPDX-FileCopyrightText: 2019 Jane Doe\n# Copyright 2021 Jane Doe\nx\n' \
    '# Copyright 2019 - 2021 Jane Doe\n#\n# SPDX-License-Identifier: ISC\nx\n'
  header '-c|Jane Doe|-y|2024|--merge-copyrights' m.py \
    '# SPDX-FileCopyrightText: 2019 Jane Doe\nx\n' \
    '# SPDX-FileCopyrightText: 2019 - 2024 Jane Doe\nx\n'
  header '-c|Jane Doe|-y|2024' m.py '# SPDX-FileCopyrightText: 2019 Jane Doe\nx\n' \
    '# SPDX-FileCopyrightText: 2019 Jane Doe\n# SPDX-FileCopyrightText: 2024 Jane Doe\nx\n'
  header '-c|Jane Doe|-y|2024' s.css 'a{}\n' \
    '/*\n * SPDX-FileCopyrightText: 2024 Jane Doe\n */\n\na{}\n'
  header '-l|MIT' p.php '<?php\necho 1;\n' "<?php\n\n// $tag\necho 1;\n"
  # A comment with text behind its closer is no block.
  header '-l|ISC' w.html '<!-- SPDX-License-Identifier: MIT --> x\n' \
    '<!--\nSPDX-License-Identifier: ISC\n-->\n\n<!-- SPDX-License-Identifier: MIT --> x\n'
}

places() {
  # The neighbour: where it is asked for, where it is there, and where the file is no text or can't
  # hold a comment
  writes '--force-dot-license|-l|MIT|a.py' a.py 'x\n' to a.py.license "$tag"
  writes '-s|python|-l|ISC|a.py' a.py 'x\n' a.py.license "$tag" to a.py.license \
    "SPDX-License-Identifier: ISC\n$tag"
  writes '-l|MIT|p.png' p.png '\x89\0' to p.png.license "$tag"
  writes '-s|python|-l|MIT|p.png' p.png '\x89\0' to p.png.license "$tag"
  writes '-l|MIT|a.py' a.py 'x\xFF' to a.py.license "$tag"
  writes '-c|Jane Doe|-y|2024|-l|MIT|a.json' a.json '{}\n' to a.json.license \
    "SPDX-FileCopyrightText: 2024 Jane Doe\n\n$tag"
  # The file, in the style that is given
  writes '-s|tex|-l|MIT|a.py|b.xyz|c.json' a.py 'x\n' b.xyz 'x\n' c.json '{}\n' to a.py \
    "% $tag\nx\n" b.xyz "% $tag\nx\n" c.json "% $tag\n{}\n"
  # A name without a style
  writes '--fallback-dot-license|-l|MIT|a.py|b.xyz' a.py 'x\n' b.xyz 'x\n' to a.py "$tagged" \
    b.xyz.license "$tag"
  writes '--skip-unrecognised|-l|MIT|a.py|b.xyz' a.py 'x\n' b.xyz 'x\n' to a.py "$tagged"
  # The covered files of a folder, and of the root
  writes '-r|-l|MIT|src' src/LICENSE 'x\n' src/a.py 'x\n' src/p.json 'x\n' to src/a.py "$tagged" \
    src/p.json.license "$tag"
  writes '-r|-l|MIT|.' .git/a.py 'x\n' .reuse/a.py 'x\n' COPYING 'x\n' LICENSES/a.py 'x\n' \
    REUSE.toml 'x\n' a.py 'x\n' b.license 'x\n' \
    b.spdx 'x\n' src/LICENCE-b.py 'x\n' src/b.py 'x\n' to a.py "$tagged" src/b.py "$tagged"
  # A neighbour is skipped where it holds a tag.
  writes '--skip-existing|-l|ISC|p.png' p.png '\x89\0' p.png.license 'x\n' to p.png.license \
    'SPDX-License-Identifier: ISC\n\nx\n'
  writes '--skip-existing|-l|MIT|p.png' p.png '\x89\0' to p.png.license "$tag"
  # The old header stays where that is asked.
  writes '--no-replace|-l|ISC|a.py' a.py "# ${tag}x\n" to a.py \
    "# SPDX-License-Identifier: ISC\n\n# ${tag}x\n"
  writes '--no-replace|-l|ISC|p.png' p.png '\x89\0' p.png.license "$tag" to p.png.license \
    "SPDX-License-Identifier: ISC\n\n$tag"
}

nothing_changed() {
  stays '-c|A --> B|-y|2024|i.html' 1 'i.html: holds the closer' i.html '<p>\n'
  stays '-l|ISC|--single-line|u.c' 1 'u.c: block would not be found again' u.c \
    '/* SPDX-License-Identifier: MIT */\n// x\n'
  stays '-l|ISC|--multi-line|a.py' 1 'a.py: no such form' a.py 'x\n'
  stays '-l|MIT|a.py|b.xyz' 1 'b.xyz: unrecognised' a.py 'x\n' b.xyz 'x\n'
  stays '-l|MIT|.' 1 '.: is a folder' a.py 'x\n'
  stays '-l|MIT|src' 1 'src: is a folder' src/a.py 'x\n'
  stays '-l|MIT|src/LICENSE' 1 'src/LICENSE: not covered' src/LICENSE 'x\n'
  stays '-l|MIT|zz' 1 'zz: no such path' a.py 'x\n'
  stays '-r|-l|MIT|.' 0 'nothing changed\n' LICENSE 'x\n'
  stays '--skip-existing|-l|ISC|p.png' 0 'nothing changed\n' p.png '\x89\0' p.png.license "$tag"
  stays '--skip-existing|-l|ISC|a.py' 0 'nothing changed\n' a.py "# ${tag}x\n"
  stays '-l|MIT|p.png' 1 'p.png.license: clash' p.png '\x89\0' p.png.license/x ''
  stays '-l|MIT|p.png' 1 'p.png: neighbour is not text' p.png '\x89\0' p.png.license '\0'
}

# What annotations and downloads print, and a reply that can't be printed
replies() {
  local after file=LICENSES/MIT.txt \
    jane='# SPDX-FileCopyrightText: 2024 Jane Doe\n#\n# SPDX-License-Identifier: MIT\n\nprint(1)\n'
  after=$(sums_of a.py "$jane")
  files a.py 'print(1)\n'
  tells undo 1 'nothing to undo'
  tells 'annotate|-c|Jane Doe|-y|2024|-l|MIT|a.py' 0 'changed a.py\n'
  tells 'annotate|-c|Jane Doe|-y|2024|-l|MIT|a.py' 0 'nothing changed\n'
  tells 'annotate|-l|MIT|zz' 1 'zz: no such path'
  tells undo 0 'undone a.py\n'
  tells redo 0 'redone a.py\n'
  has_just 'what annotations print' "$after"
  files x/MIT.txt 'text\n'
  tells 'download|--texts|x|Foo|MIT' 1 'no text: Foo'
  has_just 'a download that is refused' "$(sums_of x/MIT.txt 'text\n')"
  tells 'download|--texts|x|MIT' 0 "changed $file\n"
  has_just 'a download' "$(sums_of x/MIT.txt 'text\n' $file 'text\n')"
  tells undo 0 "undone $file\n"
  has_just 'undo of a download' "$(sums_of x/MIT.txt 'text\n')"
  files x/MIT.txt 'text\n' x/ISC.txt 'other\n'
  tells 'download|--texts|x|MIT|ISC' 0 "changed LICENSES/ISC.txt\nchanged $file\n"
  has_just 'a download of two texts' "$(sums_of x/MIT.txt 'text\n' x/ISC.txt 'other\n' \
    $file 'text\n' LICENSES/ISC.txt 'other\n')"
  files a.py 'print(1)\n'
  run 'annotate|-c|Jane Doe|-y|2024|-l|MIT|a.py' /dev/full
  [[ $status == 1 && $error == $'reuse-undo: write fault\n' ]] ||
    differs 'annotate to a full device'
  has_just 'annotate to a full device' "$after"
}

# The path of a picture with this length: folders of 250 letters, and its name
path_of_length() {
  local letters path=
  printf -v letters %0250d 0
  letters=${letters//0/a}
  while (($1 - ${#path} > 250)); do path+=$letters/; done
  printf '%s%s.png' "$path" "${letters:0:$1 - ${#path} - 4}"
}

# Annotates a picture alone in a tree, whose path has this length, and is `@` in the text; then its
# folder has it, and the neighbour if so stated: `deep LENGTH STATUS TEXT [NEIGHBOUR]`. In parts,
# since the path may be longer than the system takes.
deep() {
  local path name folder folders
  path=$(path_of_length "$1")
  name=${path##*/}
  IFS=/ read -ra folders <<< "${path%/*}"
  files
  (
    cd "$tree"
    for folder in "${folders[@]}"; do mkdir "$folder" && cd "$folder"; done
    printf '\0' > "$name"
  )
  tells "annotate|-l|MIT|$path" "$2" "${3/@/"$path"}"
  [[ $(files_of "$tree/${path%/*}") == "$(sums_of "$name" '\0' ${4:+"$name.license" "$4"})" ]] ||
    fail "a path of $1 bytes: wrong files"
}

limits() {
  # Where the neighbour is asked for, or there, or the name is that of a picture, it doesn't matter
  # that the file is longer than is read.
  files
  head -c 16777217 /dev/zero | tr '\0' x | tee "$tree/big.py" > "$tree/big.png"
  sums_of big.py.license "SPDX-License-Identifier: ISC\n$tag" big.png.license "$tag" > /dev/null
  cp "$tree"/big.* "$room/wanted"
  tells 'annotate|-l|MIT|big.py' 1 'big.py: too long'
  tells 'annotate|--force-dot-license|-l|MIT|big.py' 0 'changed big.py.license\n'
  tells 'annotate|-l|ISC|big.py' 0 'changed big.py.license\n'
  tells 'annotate|-l|MIT|big.png' 0 'changed big.png.license\n'
  has_just 'files that are too long' "$(files_of "$room/wanted")"
  # A path has at most 4,096 bytes, and eight more than the file's in its neighbour. Each folder is
  # worked through its handle, so that the system's own limit of 4,095 isn't met.
  deep 4085 0 'changed @.license\n' "$tag"
  deep 4088 0 'changed @.license\n' "$tag"
  deep 4089 1 '@: too long'
}

# Gives a step of the journal another moment.
moment() {
  local journal text
  printf -v journal '%s/.reuse/undo/%06d.json' "$tree" "$1"
  text=$(< "$journal")
  printf %s "${text/\"when\":+([0-9])/\"when\":$2}" > "$journal"
}

# Rows, with the first and the last date that a moment can have; steps that are told before they are
# made, shown, and reverted
looks() {
  local before \
    jane='-c|Jane Doe|-y|2024|-l|MIT|a.py' row='"command":"annotate","count":1,"date":"2024-01-01"'
  row+=',"done":true,"number":1,"when":1704067200}'
  files a.py 'print(1)\n' x/MIT.txt 'text\n'
  tells 'annotate|-l|MIT|a.py' 0 'changed a.py\n'
  moment 1 0
  tells 'annotate|-l|ISC|a.py' 0 'changed a.py\n'
  moment 2 1704067200
  tells 'download|--texts|x|MIT' 0 'changed LICENSES/MIT.txt\n'
  moment 3 250000000000
  tells undo 0 'undone LICENSES/MIT.txt\n'
  tells log 0 \
    '1 1970-01-01 annotate 1 done\n2 2024-01-01 annotate 1 done\n3 9892-03-08 download 1 undone\n'
  files a.py 'print(1)\n'
  before=$(files_of "$tree")
  tells log 0 ''
  tells "annotate|-n|--diff|$jane" 0 \
    'would change a.py\ndiff --git a/a.py b/a.py\n--- a/a.py\n+++ b/a.py\n@@ -1,1 +1,5 @@
+# SPDX-FileCopyrightText: 2024 Jane Doe\n+#\n+# SPDX-License-Identifier: MIT\n+\n print(1)\n'
  tells log 0 ''
  tells 'undo|-n' 1 'nothing to undo'
  # where it would be refused, the refusal is told behind what would change
  run 'annotate|-n|-l|MIT|a.py|none'
  [[ $status == 1 && $out == $'would change a.py\n' &&
    $error == $'reuse-undo: none: no such path\n' ]] || differs 'annotate|-n|-l|MIT|a.py|none'
  has_just 'dry runs' "$before"
  tells "annotate|$jane" 0 'changed a.py\n'
  moment 1 1704067200
  tells 'undo|-n' 0 'would change a.py\n'
  tells 'show|1' 0 '1 2024-01-01 annotate 1 done\nchanged a.py\n'
  tells 'log|--json' 0 "{$row\n"
  tells 'show|1|--json' 0 "{\"changes\":[{\"kind\":\"changed\",\"path\":\"a.py\"}],$row\n"
  tells 'revert|2' 1 'no such step: 2'
  tells 'revert|-n|1' 0 'would change a.py\n'
  tells 'revert|1' 0 'changed a.py\n'
  has_just 'revert' "$before"
  tells 'revert|--skip-moved|1' 0 'nothing changed\nskipped a.py\n'
  tells undo 0 'undone a.py\n'
}

# Says what was shown.
tell_counts() {
  echo "$written worked lines write what is stated, and are undone and redone; $unchanged change" \
    "nothing; $calls calls tell what is stated"
}

# options.sh reads this file for its functions.
[[ ${BASH_SOURCE[0]} == "$0" ]] || return 0
for group in headers places nothing_changed replies limits looks; do $group; done
tell_counts
