#!/usr/bin/env bash
# Amends each tag where it stands: worked examples (amend/everywhere.txt); random trees and options
# against the rules told once more (amend/everywhere.py), each taken back and made again byte for
# byte; a made tree with tags in odd places, and copies of real files (headers of /usr/include,
# Python's packages). Of these a dry run says what the run does, an undo gives back each byte, only
# lines with a tag change, and grep finds no old value. Debian's reuse, if it is installed, finds
# none in the made tree, and each in the tree before.
# TREES: how many random trees (300). SEED: the number of the first (1). FILES: how many real files
# are taken of a folder (300).
# usage: tests/everywhere.sh PROGRAM
# The tags below are data: REUSE-IgnoreStart
set -euo pipefail
. "$(dirname "$0")/common.sh"
wants python3 python3
here=$(realpath "$(dirname "$0")")/amend
export PYTHONDONTWRITEBYTECODE=1
tree=$room/tree
end='REUSE-Ignore''End'

# What a call of amend --everywhere prints, and its status
told() {
  local status=0
  "$program" --root "$tree" amend --everywhere "$@" > "$room/told" 2>&1 || status=$?
  cat "$room/told"
  echo "status $status"
}

is() { [[ $1 == "$2" ]] || fail "$3: $1"; }

holds() { [[ $(printf %b "$2") == "$(< "$tree/$1")" ]] || fail "$1 holds $(< "$tree/$1")"; }

# Which files are taken, what goes with the option, and what is refused
calls() {
  local change=(--replace-license MIT ISC) mit='# SPDX-License-Identifier: MIT\n'
  local isc='# SPDX-License-Identifier: ISC\n'
  files a.py "$mit\nx = 1  $mit" src/b "$mit" src/deep/c.xyz "$mit" LICENSE "$mit"
  is "$(told "${change[@]}" a.py src/b)" $'changed a.py\nchanged src/b\nstatus 0' 'given files'
  holds a.py "$isc\nx = 1  $isc"
  is "$(told "${change[@]}" a.py src/b)" $'nothing changed\nstatus 0' 'the same call again'
  is "$("$program" --root "$tree" log | sed -E 's/ [0-9-]{10} / DATE /')" \
    '1 DATE amend 2 done' 'the log'
  is "$(told "${change[@]}" src)" \
    $'reuse-undo: src: is a folder\nstatus 1' 'a folder without --recursive'
  is "$(told "${change[@]}" LICENSE)" \
    $'reuse-undo: LICENSE: not covered\nstatus 1' 'a file that is not covered'
  is "$(told "${change[@]}" none)" \
    $'reuse-undo: none: no such path\nstatus 1' 'a path that is not there'
  is "$(told "${change[@]}" -r . --exclude '**.xyz')" $'nothing changed\nstatus 0' 'a glob'
  is "$(echo src/deep/c.xyz | told "${change[@]}" -r . --files-from - --check --json)" \
    $'{"outcome":"would change","path":"src/deep/c.xyz"}\nstatus 1' 'a list, and JSON of a check'
  # A value that can't go is left: it counts for the status of a check.
  files a.py "$mit" b "x = 1  $mit" c "$isc"
  is "$(told --remove-license MIT -r . --check)" "$(printf '%s\n' 'would change a.py' \
    'unchanged b' 'unchanged c' 'would leave b' 'status 1')" 'a check of what goes'
  is "$(told --remove-license MIT -r .)" \
    $'changed a.py\nleft b\nstatus 0' 'a removed licence, of which no other is left'
  holds a.py ''
  [[ -e $tree/a.py && ! -s $tree/a.py ]] || fail 'a file of one tag is not left empty'
  is "$("$program" --root "$tree" undo)" 'undone a.py' 'an undo'
  holds a.py "$mit"
  # One refused file leaves the others.
  files a "$mit" b '# SPDX-License-Identifier: MIT WITH x\n'
  is "$(told --replace-license MIT 'ISC OR 0BSD' -r .)" \
    $'reuse-undo: b: bad licence expression\nstatus 1' 'a bad expression'
  holds a "$mit"
  # Of files over 16 MiB those stay whose names have no style. Any other is refused.
  files a.py "$mit" big.png ''
  truncate -s 16777217 "$tree/big.png"
  is "$(told "${change[@]}" -r .)" $'changed a.py\nstatus 0' 'a long file without a style'
  mv "$tree/big.png" "$tree/big.py"
  is "$(told "${change[@]}" -r .)" $'reuse-undo: big.py: too long\nstatus 1' 'a long file'
  # Words
  is "$(told a)" $'reuse-undo: nothing to amend\nstatus 2' 'nothing to amend'
  told "${change[@]}" --style python a > "$room/out"
  grep -qF "'--everywhere' cannot be used with '--style <NAME>'" "$room/out" ||
    fail "with a style: $(< "$room/out")"
  is "$(tail -n 1 "$room/out")" 'status 2' 'the status with a style'
}

# A tree with tags in odd places. `two` and `three` are the marks of what is gone afterwards.
odd_tree() {
  local two='SPDX-License-Identifier: GPL-2.0' doe='Copyright (C) 2019 Jane Doe'
  files \
    kernel.c "// $two\n/*\n * $doe\n */\nint x;\n" \
    both.c "/* $two */\n/* SPDX-FileContributor: Joe Bloggs */\nint x; /* $two */\n" \
    README "Tool\n\n$two\nSPDX-FileCopyrightText: 2012-2014, 2019 Jane Doe\n" \
    README.md "# Tool\n\n<!--\n$two\n-->\n<p title=\"$two OR MIT\" />\n" \
    src/a.proto "// $two\n// $doe\nsyntax = \"proto3\";\n" \
    src/b.txt "$two\r\n$doe\r\nSPDX-FileContributor: Joe Bloggs\r\nx\r\n" \
    src/c.py "x = 1  # $two\n\ny = '$two'\n" \
    src/d.py "\0357\0273\0277# $two\nx = 1\n" \
    src/e.py "# $two\n# REUSE-IgnoreStart\n# $two\n# $end\n# $two" \
    src/f.xml "<?xml version=\"1.0\"?>\n<!-- $two -->\n<!--\n  $doe\n-->\n<a/>\n" \
    src/g.rst ".. $two AND (MIT OR GPL-2.0)\n.. $doe\n" \
    src/h.csv "a;b\n$two\n" \
    src/i "#!/bin/sh\n# $two\n\n# SPDX-FileContributor: Joe Bloggs\necho\n" \
    src/j.png '\0211PNG\0000' src/j.png.license "$two\nSPDX-SnippetBegin\n$two\n" \
    src/k.py '# SPDX-License-Identifier: GPL-2.0-only\n# Copyright 2019 Jane Doe Ltd\n'
}

# All files of the tree that has to stay as it is but for amended lines
all_files() { (cd "$1" && find . -path ./.reuse -prune -o -type f -print | LC_ALL=C sort); }

# A file without its byte order mark
unmarked() { LC_ALL=C sed $'1s/^\xEF\xBB\xBF//' "$1"; }

# A call on the tree, by its name and options: a dry run says what the run does, only lines with a
# tag change, and an undo gives back each byte.
whole_call() {
  local name=$1 path
  shift
  rm -rf "$room/before" "$room/after"
  cp -r "$tree" "$room/before"
  told "$@" -r . -n > "$room/seen"
  [[ $(tail -n 1 "$room/seen") == 'status 0' ]] || fail "$name: $(grep reuse-undo "$room/seen")"
  diff -r --exclude=.reuse "$room/before" "$tree" > "$room/diff" || fail "$name: a dry run changes"
  told "$@" -r . > "$room/changed"
  grep -q '^changed ' "$room/changed" || fail "$name: no file changes"
  is "$(sed -n 's/^would change //p' "$room/seen")" "$(sed -n 's/^changed //p' "$room/changed")" \
    "$name, what a dry run names"
  is "$(sed -n 's/^would leave //p' "$room/seen")" "$(sed -n 's/^left //p' "$room/changed")" \
    "$name, what a dry run leaves"
  cp -r "$tree" "$room/after"
  { diff -rq --exclude=.reuse "$room/before" "$room/after" || :; } |
    sed -nE 's/^Files .*\/before\/(.*) and .* differ$/\1/p' | LC_ALL=C sort > "$room/differ"
  sed -n 's/^changed //p' "$room/changed" | diff - "$room/differ" > "$room/diff" ||
    fail "$name: other files differ: $(< "$room/diff")"
  is "$(all_files "$room/before")" "$(all_files "$room/after")" "$name, the files"
  # Of each changed line the old one and the new one have a tag.
  while IFS= read -r path; do
    diff --text <(unmarked "$room/before/$path") <(unmarked "$room/after/$path") | grep -a '^[<>]' |
      grep -avE 'SPDX-License-Identifier:|SPDX-FileContributor:|Copyright|©' > "$room/odd" || :
    [[ ! -s $room/odd ]] || fail "$name: $path differs in $(head -n 3 "$room/odd")"
  done < "$room/differ"
  "$program" --root "$tree" undo > "$room/out" || fail "$name: undo"
  diff -r --exclude=.reuse "$room/before" "$tree" > "$room/diff" ||
    fail "$name: undo leaves $(head -n 3 "$room/diff")"
  "$program" --root "$tree" redo > "$room/out" || fail "$name: redo"
  diff -r --exclude=.reuse "$room/after" "$tree" > "$room/diff" ||
    fail "$name: redo makes $(head -n 3 "$room/diff")"
}

# The lines of the tree with this pattern, outside of what isn't read
found() {
  all_files "$tree" | while IFS= read -r path; do
    sed -E "/REUSE-IgnoreStart/,/$end/d" "$tree/$path"
  done | grep -acE -- "$1" || :
}

judged=0
# What Debian's reuse reads in the tree holds the pattern, or doesn't.
spdx() {
  command -v reuse > /dev/null || return 0
  (cd "$tree" && LC_ALL=C.UTF-8 reuse spdx) > "$room/spdx" 2> "$room/error" ||
    fail "reuse spdx: $(tail -n 3 "$room/error")"
  judged=$((judged + 1))
  if grep -qE -- "$1" "$room/spdx"; then echo yes; else echo no; fi > "$room/has"
  is "$(< "$room/has")" "$2" "what reuse reads, with $1"
}

# One old value after the other goes: no tool reads it any more.
odd_places() {
  local old='LicenseInfoInFile: GPL-2\.0$' doe='Jane Doe</text>'
  odd_tree
  spdx "$old" yes
  spdx "$doe" yes
  # The first of what a plain amend does beside it
  "$program" --root "$tree" amend --replace-license GPL-2.0 GPL-2.0-or-later -r . -n > "$room/plain"
  (($(grep -c '^would leave ' "$room/plain") >= 10)) || fail "few are left: $(< "$room/plain")"
  whole_call 'another licence' --replace-license GPL-2.0 GPL-2.0-or-later
  ! grep -q '^left ' "$room/changed" || fail "it leaves $(grep '^left ' "$room/changed")"
  is "$(found "SPDX-License-Identifier: (.*[( ])?GPL-2\.0([^-]|\$)")" 0 'the old licence'
  spdx "$old" no
  holds kernel.c "// SPDX-License-Identifier: GPL-2.0-or-later\n/*\n * Copyright (C) 2019 Jane Doe
 */\nint x;\n"
  whole_call 'another holder' --replace-holder 'Jane Doe' 'Jane Roe'
  spdx "$doe" no
  spdx 'Jane Roe</text>' yes
  holds src/k.py '# SPDX-License-Identifier: GPL-2.0-only\n# Copyright 2019 Jane Doe Ltd\n'
  whole_call years --until 2026 --holder 'Jane Roe'
  is "$(found '(2012-2014|20..), 2019 - 2026 Jane Roe')" 1 'the years that end last'
  whole_call 'no contributor' --remove-contributor 'Joe Bloggs'
  is "$(found FileContributor)" 0 'the contributor'
  whole_call 'no licence' --remove-license GPL-2.0-or-later
  is "$(grep '^left ' "$room/changed")" \
    "$(printf 'left %s\n' both.c src/c.py)" 'what other text holds'
}

# Copies of real files with tags in them, some of each folder, by short names
real_files() {
  local folder number=0 path
  rm -rf "$tree"
  mkdir "$tree"
  for folder in /usr/include /usr/share/doc /usr/lib/python3 "$(python3 -c \
    'import sysconfig; print(sysconfig.get_path("stdlib"))')"; do
    [[ -d $folder ]] || continue
    grep -rIlE 'SPDX-License-Identifier:|Copyright' "$folder" 2> "$room/error" | LC_ALL=C sort |
      awk -v "most=${FILES:-300}" '{ all[NR] = $0 }
        END { step = NR > most ? NR / most : 1; for (k = 1; k <= NR; k += step) print all[int(k)] }' \
        > "$room/list" || :
    while IFS= read -r path; do
      number=$((number + 1))
      cp --no-preserve=all "$path" "$tree/$number-$(basename "$path")"
    done < "$room/list"
  done
  copies=$number
}

# The value that most of the files have behind a text
most() {
  { grep -rhaoP --exclude-dir=.reuse -- "$1" "$tree" || :; } | sort | uniq -c | sort -rn |
    sed -nE '1s/^ *[0-9]+ //p'
}

on_real_files() {
  local licence holder fault
  real_files
  licence=$(most 'SPDX-License-Identifier: \K[A-Za-z0-9.-]+(?= WITH| OR|$| \*/)')
  holder=$(most 'Copyright (\(c\)|\(C\)) [0-9]{4} \K[A-Z][a-z]+( [A-Z][A-Za-z]+)+(?=\r?$)')
  [[ $licence && $holder ]] || skip 'no real files have tags'
  # The rules told once more say the same of all of them.
  fault=$(python3 "$here/real_tree.py" "$program" "$room/real" "$tree" --everywhere \
    --replace-license "$licence" LicenseRef-New --replace-holder "$holder" 'A New Holder' \
    --until 2026 --remove-license MIT) || fail "$fault"
  whole_call 'real files, a licence' --replace-license "$licence" LicenseRef-New
  (($(grep -c '^changed ' "$room/changed") * 20 >= copies)) || fail "few files have $licence"
  ! grep -q '^left ' "$room/changed" || fail "$(grep '^left ' "$room/changed")"
  whole_call 'real files, a holder' --replace-holder "$holder" 'A New Holder'
  ! grep -q '^left ' "$room/changed" || fail "$(grep '^left ' "$room/changed")"
  whole_call 'real files, years' --until 2026 --holder 'A New Holder'
}

examples=$(python3 "$here/examples.py" "$program" "$room" "$here/everywhere.txt") ||
  fail "$examples"
calls
odd_places
on_real_files
random=$(python3 "$here/random_trees.py" "$program" "$room" "${TREES:-300}" "${SEED:-1}" \
  --everywhere) || fail "$random"
echo "$examples; 5 calls on tags in odd places, of which reuse judged $judged times, and 3 on" \
  "$copies real files; random trees: $random"
