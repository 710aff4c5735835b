#!/usr/bin/env bash
# Runs the program into the refusals that words, files and another run can bring about, and compares
# the text on standard error and the status. A refused call must write nothing on standard output
# and leave all files as they were. Ends with status 1 at the first fault. `journal of another user`
# and `cannot keep its owner` take two users, and are in owners.sh. Three texts no script meets:
# `broken` is for a second call of one session, `bad clock` for another time, and
# `.reuse/dep5: not TOML` for a fault of the program.
# usage: tests/refusals.sh PROGRAM
# The tags below are data: REUSE-IgnoreStart
set -euo pipefail
. "$(dirname "$0")/common.sh"
tree=$room/tree
texts=$room/texts
jane=(-c "Jane Doe" -y 2024)
refusals=0

# One checksum over all names, bits and bytes of the tree
all_files() { tar -C "$room" --sort=name --mtime=@0 -cf - tree | sha256sum; }

# Compares what a call that failed has told.
compare() {
  local status=$1 text=$2 found=$3
  shift 3
  [[ $found == "$status" ]] || fail "$*: status $found, not $status"
  [[ ! -s $room/out ]] || fail "$*: it prints $(cat "$room/out")"
  printf 'reuse-undo: %s\n' "$text" | cmp -s - "$room/error" ||
    fail "$*: it tells $(cat "$room/error")"
  refusals=$((refusals + 1))
}

# The call is refused with this status and this text.
refused() {
  local found=0 before
  before=$(all_files)
  "$program" --root "$tree" "${@:3}" > "$room/out" 2> "$room/error" || found=$?
  compare "$1" "$2" $found "${@:3}"
  [[ $(all_files) == "$before" ]] || fail "${*:3}: files are changed"
}

# The call is made.
made() {
  "$program" --root "$tree" "$@" > "$room/out" 2> "$room/error" || fail "$*: $(cat "$room/error")"
}

# Where clap refuses, its text begins so.
refused_words() {
  local found=0
  "$program" "$@" > "$room/out" 2> "$room/error" || found=$?
  [[ $found == 2 && ! -s $room/out && $(head -c 7 "$room/error") == "error: " ]] ||
    fail "$*: status $found, $(cat "$room/error")"
  refusals=$((refusals + 1))
}

words() {
  files a.py 'x\n'
  refused 2 'nothing to add' annotate a.py
  refused 2 '--year and --exclude-year' annotate "${jane[@]}" --exclude-year a.py
  refused 2 'bad year: 24' annotate -c A -y 24 a.py
  refused 2 'bad year: 2O24' annotate -l MIT -y 2O24 a.py
  refused 2 $'bad text: A\tB' annotate -c $'A\tB' a.py
  refused 2 'bad text: ' annotate --contributor '' a.py
  refused 2 'bad licence expression at 7: MIT AND' annotate -l 'MIT AND' a.py
  refused 2 'bad path: /a.py' annotate -l MIT /a.py
  refused 2 'bad path: ../a.py' annotate ../a.py
  refused 2 'bad path: a//b' annotate -l MIT a.py a//b
  refused 2 'bad glob: a\b' annotate -l MIT -r --exclude 'a\b' .
  refused 2 "$room/list: cannot be read" annotate -l MIT -r --files-from "$room/list" .
  refused_words
  refused_words annotate -l MIT
  refused_words annotate -l MIT --nothing a.py
  refused_words annotate -l MIT --single-line --multi-line a.py
  refused_words download MIT
  refused_words undo a.py
}

places() {
  files a.py 'x\n' src/b.py 'x\n' src/LICENSE 'x\n' b.xyz 'x\n'
  refused 1 'zz: no such path' annotate -l MIT a.py zz
  refused 1 'src: is a folder' annotate -l MIT src
  refused 1 '.: is a folder' annotate -l MIT .
  refused 1 'src/LICENSE: not covered' annotate -l MIT src/LICENSE
  refused 1 'src/LICENSE: not covered' amend --until 2026 src/LICENSE
  refused 1 'b.xyz: unrecognised' annotate -l MIT a.py b.xyz
  refused 1 'a.py: no such form' annotate -l MIT --multi-line a.py
  files a.py 'x\n' .reuse/styles.toml '['
  refused 1 '.reuse/styles.toml: bad styles' annotate -l MIT --style python a.py
  files a.py 'x\n' .reuse/styles.toml '[' .reuse/comments.toml 'version = 1\n'
  refused 1 '.reuse/comments.toml: bad comments' annotate -l MIT --style python a.py
  refused 1 '.reuse/comments.toml: bad comments' amend --until 2026 a.py
  files i.html '<p>\n' p.png '\0211' p.png.license '\0'
  refused 1 'i.html: holds the closer' annotate -c 'A --> B' i.html
  refused 1 'p.png: neighbour is not text' annotate -l MIT p.png
  files u.c '/* SPDX-License-Identifier: MIT */\n// x\n' 'q.png' '\0211' q.png.license/a 'x'
  refused 1 'u.c: block would not be found again' annotate -l ISC --single-line u.c
  refused 1 'q.png.license: clash' annotate -l ISC q.png
  files a.py ''
  head -c 16777217 /dev/zero | tr '\0' x > "$tree/a.py"
  refused 1 'a.py: too long' annotate -l MIT a.py
  truncate -s 16777216 "$tree/a.py"
  refused 1 'a.py: too long' annotate -l MIT a.py
}

amendments() {
  files a.py '# SPDX-License-Identifier: MIT\n' b.py '# SPDX-License-Identifier: MIT WITH x\n' \
    c.css '/*\n * SPDX-FileContributor: A\n */\n' p.png '\0211' p.png.license '\0'
  refused 1 'a.py: nothing left' amend --remove-license MIT a.py
  refused 1 'b.py: bad licence expression' amend --replace-license MIT 'MIT OR ISC' a.py b.py
  refused 1 'c.css: holds the closer' amend --replace-contributor A '*/' c.css
  refused 1 'p.png: neighbour is not text' amend --until 2026 p.png
  refused 1 'zz: no such path' amend --until 2026 a.py zz
  refused 2 'bad licence expression at 4: MIT ISC' amend --replace-license MIT 'MIT ISC' a.py
  refused 2 'bad text: ' amend --remove-holder ' ' a.py
  refused 2 'bad year: 26' amend --until 26 a.py
  refused 2 'nothing to amend' amend --style python a.py
  refused_words --root "$tree" amend --until 2026
  refused_words --root "$tree" amend --holder A a.py
  files REUSE.toml 'x\n'
  refused 1 'REUSE.toml: cannot be amended' amend --until 2026 REUSE.toml
}

# A dep5 with this text behind the field Format
refused_dep5() {
  files .reuse/dep5 "Format: x\n$2"
  refused 1 ".reuse/dep5$1" convert-dep5
}

conversions() {
  local paragraph='Copyright: J\nLicense: MIT\n'
  files a.py 'x\n'
  refused 1 '.reuse/dep5: absent' convert-dep5
  files .reuse/dep5 'Format: x\n' REUSE.toml 'version = 1\n'
  refused 1 'REUSE.toml: exists' convert-dep5
  files .reuse/dep5 'Format: x\n' REUSE.toml/a 'x'
  refused 1 'REUSE.toml: clash' convert-dep5
  files .reuse/dep5 ''
  refused 1 '.reuse/dep5:1: Empty' convert-dep5
  refused_dep5 ': not UTF-8' 'Source: \0377\n'
  refused_dep5 ':2: NoField' 'x\n'
  refused_dep5 ':3: Orphan' '\n x\n'
  refused_dep5 ':2: Repeated' 'format: y\n'
  files .reuse/dep5 'Source: x\n'
  refused 1 '.reuse/dep5:1: NoFormat' convert-dep5
  refused_dep5 ':3: NoKind' '\nComment: x\n'
  refused_dep5 ':3: Missing' '\nFiles: *\nLicense: MIT\n'
  refused_dep5 ':3: BadEscape' "\nFiles: a\\\\b\n$paragraph"
  refused_dep5 ':3: question mark' "\nFiles: a?.c\n$paragraph"
  files .reuse/dep5 'Format: x\nSource: '
  head -c 9000000 /dev/zero | tr '\0' '"' >> "$tree/.reuse/dep5"
  refused 1 '.reuse/dep5: result too long' convert-dep5
  truncate -s 16777217 "$tree/.reuse/dep5"
  refused 1 '.reuse/dep5: too long' convert-dep5
}

downloads() {
  local download=(download --texts "$texts") ids=(A B C D E F G H)
  mkdir "$texts"
  echo text > "$texts/MIT.txt"
  files LICENSES/MIT.txt 'text\n'
  refused 1 'bad id: GPL-2.0+' "${download[@]}" GPL-2.0+
  refused 1 'no text: Foo' "${download[@]}" Foo MIT
  refused 1 'LICENSES/MIT.txt: exists' "${download[@]}" MIT
  files LICENSES 'x'
  refused 1 'LICENSES/MIT.txt: clash' "${download[@]}" MIT
  files a.py 'x\n'
  truncate -s 16777216 "$texts/A.txt"
  for id in "${ids[@]:1}"; do ln "$texts/A.txt" "$texts/$id.txt"; done
  refused 1 'too many changes' "${download[@]}" "${ids[@]}"
  truncate -s 16777217 "$texts/A.txt"
  refused 1 'LICENSES/A.txt: too long' "${download[@]}" A
}

histories() {
  local call
  files a.py 'x\n'
  refused 1 'nothing to undo' undo
  refused 1 'nothing to redo' redo
  for call in show revert forget; do refused 1 'no such step: 1' $call 1; done
  exec 9< "$tree"
  flock -x 9
  refused 1 'in use by another run' undo
  exec 9<&-
  made annotate "${jane[@]}" a.py
  echo y >> "$tree/a.py"
  refused 1 'a.py: moved' undo
  sed -i '$d' "$tree/a.py"
  made undo
  echo y >> "$tree/a.py"
  refused 1 'a.py: moved' redo
  sed -i '$d' "$tree/a.py"
  made redo
  # As many steps as the journal takes
  (cd "$tree/.reuse/undo" &&
    seq -f %06.0f.json 2 4096 | xargs sh -c 'tee "$@" < 000001.json > /dev/null' tee)
  printf '{"done":[%s],"format":1,"next":4097,"pending":null,"undone":[]}' "$(seq -s, 4096)" \
    > "$tree/.reuse/undo/head.json"
  refused 1 'journal full' annotate "${jane[@]}" a.py
}

bad_journals() {
  local head=.reuse/undo/head.json
  files a.py 'x\n' $head '{"done":[1]'
  refused 1 "$head: bad journal" log
  files a.py 'x\n' $head '{"done":[1],"format":1,"next":2,"pending":null,"undone":[]}'
  refused 1 '.reuse/undo/000001.json: bad journal' undo
  files a.py 'x\n' .reuse 'x'
  refused 1 '.reuse: bad journal' annotate -l MIT a.py
  files a.py 'x\n' .reuse/undo 'x'
  refused 1 '.reuse/undo: bad journal' redo
}

# A call that may write no more than 64 kB into one file, so that the second file of the step can't
# be written
faults() {
  local found=0 before
  files a.py 'x\n' b.py '' .reuse/dep5 'Format: x\n'
  head -c 100000 /dev/zero | tr '\0' x > "$tree/b.py"
  before=$(state_of "$tree")
  (trap '' XFSZ && ulimit -f 64 && exec "$program" --root "$tree" annotate -l MIT -r .) \
    > "$room/out" 2> "$room/error" || found=$?
  compare 1 interrupted $found 'annotate with a limit'
  is_pending "$tree" || fail 'no step is under way'
  echo yyy > "$tree/a.py"
  refused 1 'a.py: moved' log
  printf '# SPDX-License-Identifier: MIT\n\nx\n' > "$tree/a.py"
  [[ $(state_of "$tree") == "$before" ]] || fail 'the step is not set back'
  files a.py 'x\n' $'\377.py' 'x\n'
  refused 1 'store fault' annotate -l MIT -r .
  found=0
  "$program" --root "$room/absent" log > "$room/out" 2> "$room/error" || found=$?
  compare 1 'store fault' $found 'log without a root'
  files a.py ''
  head -c 16000000 /dev/zero | tr '\0' '\n' > "$tree/a.py"
  found=0
  (ulimit -v 16000 && exec "$program" --root "$tree" annotate -l MIT a.py) > "$room/out" \
    2> "$room/error" || found=$?
  compare 1 'out of memory' $found 'annotate with little memory'
  # What can't be told stands.
  files a.py ''
  found=0
  : > "$room/out"
  "$program" --root "$tree" annotate -l MIT a.py > /dev/full 2> "$room/error" || found=$?
  compare 1 'write fault' $found 'annotate to a full device'
  [[ $(< "$tree/a.py") == '# SPDX-License-Identifier: MIT' ]] ||
    fail 'annotate to a full device: the file is not changed'
}

for group in words places amendments conversions downloads histories bad_journals faults; do
  $group
done
echo "$refusals refusals are as stated"
