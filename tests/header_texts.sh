#!/usr/bin/env bash
# Adds texts to headers, takes texts out, and removes headers, in several styles and in neighbours.
# Each call is looked at by a dry run and a check, made, made again, which changes nothing, and
# taken back byte for byte. Then come texts that are refused, in the order of the faults, and
# options that don't go together. Last come random trees and calls, compared with the rules told
# once more (amend/header_texts.py). Ends with status 1 at the first fault.
# SEED: the number of the first random tree (1).
# usage: tests/header_texts.sh PROGRAM [ROUNDS]
# ROUNDS: how many random trees (300).
# The tags below are data: REUSE-IgnoreStart
set -euo pipefail
. "$(dirname "$0")/common.sh"
wants python3 python3
here=$(realpath "$(dirname "$0")")/amend
export PYTHONDONTWRITEBYTECODE=1
tree=$room/tree
texts=$room/texts
mkdir "$texts"
made=0 refused=0

told() { answer_of "$@"; }

# A file of a text, by its name and its text with escapes
text() { printf %b "$2" > "$texts/$1"; }

# A file of the tree is there with this text, or isn't there.
holds() {
  [[ -e $tree/$1 ]] || fail "$1 is gone"
  printf %b "$2" | cmp -s - "$tree/$1" || fail "$1 holds $(< "$tree/$1")"
}
is_gone() { [[ ! -e $tree/$1 ]] || fail "$1 is there: $(< "$tree/$1")"; }

sums() {
  (cd "$tree" && find . -path ./.reuse -prune -o -type f -print0 | sort -z | xargs -0 sha256sum)
}

# A call that changes these files, in byte order: a dry run and a check say so and change nothing,
# an undo gives back each byte, and after a redo the call changes nothing.
# usage: changes 'FILE ..' WORD..
changes() {
  local seen changed undone files
  read -ra files <<< "$1"
  changed=$(printf 'changed %s\n' "${files[@]}")
  undone=$(printf 'undone %s\n' "${files[@]}")
  seen=$(printf 'would change %s\n' "${files[@]}")
  shift
  sums > "$room/before"
  is "$(told "$@" --dry-run | grep -v '^unchanged ')" "$seen"$'\nstatus 0' "a dry run of $*"
  is "$(told "$@" --check | grep -v '^unchanged ')" "$seen"$'\nstatus 1' "a check of $*"
  sums | cmp -s - "$room/before" || fail "a dry run of $* changes files"
  is "$(told "$@")" "$changed"$'\nstatus 0' "$*"
  sums > "$room/after"
  is "$(told undo)" "$undone"$'\nstatus 0' "undo of $*"
  sums | cmp -s - "$room/before" || fail "undo of $* gives back other bytes"
  told redo > "$room/redone"
  sums | cmp -s - "$room/after" || fail "redo of $* makes other bytes"
  is "$(told "$@")" $'nothing changed\nstatus 0' "$* once more"
  made=$((made + 1))
}

# A call that changes nothing
unchanged() { is "$(told "$@")" $'nothing changed\nstatus 0' "$*"; }

# A call that is refused with this status and line, and changes nothing
refuses() {
  local status=$1 line=$2
  shift 2
  sums > "$room/before"
  is "$(told "$@")" "reuse-undo: $line"$'\n'"status $status" "$*"
  sums | cmp -s - "$room/before" || fail "$* changes files"
  refused=$((refused + 1))
}

# A call whose options don't go together: the line names both of them.
excludes() {
  local one=$1 other=$2
  shift 2
  told "$@" > "$room/told"
  grep -qF -- "'$one' cannot be used with" "$room/told" || fail "$*: $(< "$room/told")"
  grep -qF -- "$other" "$room/told" || fail "$*: $(< "$room/told")"
  is "$(tail -n 1 "$room/told")" 'status 2' "$*"
  refused=$((refused + 1))
}

mit='SPDX-License-Identifier: MIT'
acme='Copyright 2019 ACME'

added() {
  text note 'Part of the ACME tools.\n\nAsk   us first.\n'
  text other '\0357\0273\0277\r\n  Other words  \r\n\r\n'
  files a.py 'x = 1\n' b.c 'int x;\n' c.css 'p {}\n' d.html '<p>\n' e.png '\0211PNG\0000'
  changes 'a.py b.c c.css d.html e.png.license' annotate -l MIT --text "$texts/note" -r .
  holds a.py "# $mit\n#\n# Part of the ACME tools.\n#\n# Ask   us first.\n\nx = 1\n"
  holds b.c "// $mit\n//\n// Part of the ACME tools.\n//\n// Ask   us first.\n\nint x;\n"
  holds c.css "/*\n * $mit\n *\n * Part of the ACME tools.\n *\n * Ask   us first.\n */\n\np {}\n"
  holds d.html "<!--\n$mit\n\nPart of the ACME tools.\n\nAsk   us first.\n-->\n\n<p>\n"
  holds e.png.license "$mit\n\nPart of the ACME tools.\n\nAsk   us first.\n"
  # Its words are there, in other lines.
  text note 'Part of\nthe ACME tools. Ask us\nfirst.'
  unchanged annotate -l MIT --text "$texts/note" -r .
  # Two texts, of which a header has one
  changes 'a.py b.c c.css d.html e.png.license' \
    annotate -l MIT --text "$texts/other" --text "$texts/note" -r .
  holds a.py \
    "# $mit\n#\n# Part of the ACME tools.\n#\n# Ask   us first.\n#\n#   Other words\n\nx = 1\n"
  # Two texts, in the order of the options
  files a.py 'x = 1\n'
  changes a.py annotate -l MIT --text "$texts/other" --text "$texts/note" a.py
  holds a.py "# $mit\n#\n#   Other words\n#\n# Part of\n# the ACME tools. Ask us\n# first.\n\nx = 1\n"
  # Other lines of a header stay in front.
  files a.py "# Tool.\n# $mit\nx = 1\n"
  changes a.py annotate -l MIT --text "$texts/other" a.py
  holds a.py "# $mit\n#\n# Tool.\n#\n#   Other words\nx = 1\n"
}

# The closer of a comment in a text
closers() {
  text closer 'a */ b\n'
  files a.py 'x = 1\n' b.c 'int x;\n' c.css 'p {}\n'
  refuses 1 'c.css: bad text' annotate -l MIT --text "$texts/closer" -r .
  refuses 1 'b.c: bad text' annotate -l MIT --text "$texts/closer" --multi-line b.c
  is "$(told annotate -l MIT --text "$texts/closer" --dry-run c.css 2>&1)" \
    $'reuse-undo: c.css: bad text\nstatus 1' 'a dry run'
  changes 'a.py b.c' annotate -l MIT --text "$texts/closer" -r --exclude '**.css' .
  holds b.c "// $mit\n//\n// a */ b\n\nint x;\n"
}

prose='Permission is hereby granted to anyone,'
limits='without limits.'

taken_out() {
  text prose 'Permission is hereby\n  granted to anyone, without limits.\n'
  text tool 'A tool.\n'
  files \
    a.py "# $acme\n# $mit\n#\n# A tool.\n#\n# $prose\n# $limits\n\nx = 1\n" \
    b.c "/*\n * $acme\n *\n * $prose\n * $limits\n */\nint x;\n" \
    c.html "<!--\n$acme\n$prose\n$limits\n-->\n<p>\n" \
    d.png '\0211PNG\0000' d.png.license "$acme\n\n$prose\n$limits\n" \
    e.py "# $mit\n\n# $prose\n# $limits\n" f.py "# $mit\n#\n# $prose\n" g.py 'x = 1\n'
  changes 'a.py b.c c.html d.png.license' amend --remove-text "$texts/prose" -r .
  holds a.py "# $acme\n#\n# $mit\n#\n# A tool.\n\nx = 1\n"
  holds b.c "/*\n * $acme\n */\nint x;\n"
  holds c.html "<!--\n$acme\n-->\n<p>\n"
  holds d.png.license "$acme\n"
  # Beside values, and several texts
  files a.py "# $mit\n#\n# A tool.\n#\n# $prose\n# $limits\n#\n# The end.\n" b.py "# $mit\n"
  changes 'a.py b.py' amend --replace-license MIT ISC --remove-text "$texts/tool" \
    --remove-text "$texts/prose" -r .
  holds a.py '# SPDX-License-Identifier: ISC\n#\n# The end.\n'
  holds b.py '# SPDX-License-Identifier: ISC\n'
}

headers() {
  files \
    a.py "#!/usr/bin/env python3\n\n# $acme\n# $mit\n\nx = 1\n" \
    b.c "/* $mit */\n\nint x;\n" c.html "<!--\n$mit\n\nA note\n-->\n\n<p>\n" \
    d.css "/* $mit */\n" e.png '\0211PNG\0000' e.png.license "$acme\n\n$mit\n" \
    f.png '\0211PNG\0000' f.png.license "$mit\n\nA note\n" g.py 'x = 1\n' \
    REUSE.toml 'version = 1\n'
  changes 'a.py b.c c.html d.css e.png.license f.png.license' amend --remove-header -r .
  holds a.py '#!/usr/bin/env python3\n\nx = 1\n'
  holds b.c 'int x;\n'
  holds c.html '<!--\nA note\n-->\n\n<p>\n'
  holds d.css ''
  is_gone e.png.license
  holds f.png.license 'A note\n'
  holds g.py 'x = 1\n'
  # Options that choose files go with it.
  files a.py "# $mit\n" b.py "# $mit\n" c.txt "# $mit\n"
  is "$(echo a.py | told amend --remove-header -r --files-from - --exclude 'b*' .)" \
    $'changed a.py\nstatus 0' 'the header of a listed file'
  changes c.txt amend --remove-header --style python c.txt
  holds c.txt ''
  holds b.py "# $mit\n"
}

# Files that are no texts, each with its reason, and the order of faults
bad_texts() {
  local name kind options
  text long ''
  head -c 65537 /dev/zero | tr '\0' a > "$texts/long"
  text longest ''
  head -c 65536 /dev/zero | tr '\0' a > "$texts/longest"
  text latin 'a \0344\n'
  text nul 'a \0000\n'
  text control 'a \0033[1m\n'
  text tag "Words\n; $mit\n"
  text notice "$acme\n"
  text barrier 'SPDX-SnippetBegin\n'
  text empty ''
  text blank ' \n\t\r\n'
  text good 'Good words\n'
  files a.py "# $mit\n"
  for kind in 'annotate -l MIT --text' 'amend --remove-text'; do
    read -ra options <<< "$kind"
    for name in 'long text is too long' 'latin text is not UTF-8' 'nul text is not UTF-8' \
      'control text has a control byte' 'tag text has a tag' 'notice text has a tag' \
      'barrier text has a barrier' 'empty text is empty' 'blank text is empty'; do
      refuses 2 "bad text: $texts/${name%% *}: ${name#* }" "${options[@]}" "$texts/${name%% *}" a.py
    done
    refuses 2 "$texts/none: cannot be read" "${options[@]}" "$texts/none" a.py
    refuses 2 "$texts: cannot be read" "${options[@]}" "$texts" a.py
    # The first of several
    refuses 2 "bad text: $texts/tag: text has a tag" \
      "${options[@]}" "$texts/good" "${options[-1]}" "$texts/tag" "${options[-1]}" "$texts/empty" a.py
    # Words come first, and then the list of files.
    refuses 2 'bad path: ../a' "${options[@]}" "$texts/empty" ../a
    refuses 2 'bad glob: a\b' "${options[@]}" "$texts/empty" -r --exclude 'a\b' .
    refuses 2 'nolist: cannot be read' "${options[@]}" "$texts/empty" -r --files-from nolist .
  done
  refuses 2 'bad year: 24' annotate -l MIT --text "$texts/empty" -y 24 a.py
  refuses 2 'nothing to add' annotate --text "$texts/good" a.py
  changes a.py annotate -l MIT --text "$texts/longest" a.py
  changes a.py amend --remove-text "$texts/longest" a.py
}

# Standard input, and files by their paths from the working folder
inputs() {
  local line
  files a.py "# $mit\n"
  is "$(echo 'From a pipe' | told annotate -l MIT --text - a.py)" \
    $'changed a.py\nstatus 0' 'a text of standard input'
  holds a.py "# $mit\n#\n# From a pipe\n"
  line=$'reuse-undo: bad text: -: text is empty\nstatus 2'
  is "$(echo 'From a pipe' | told annotate -l MIT --text - --text - a.py)" "$line" 'two of them'
  is "$(echo a.py | told amend --remove-text - -r --files-from - .)" "$line" 'a list before it'
  is "$(echo 'From a pipe' | told amend --remove-text - a.py)" \
    $'changed a.py\nstatus 0' 'a text of standard input that goes'
  holds a.py "# $mit\n"
  text here 'By a path\n'
  is "$(cd "$texts" && told annotate -l MIT --text here a.py)" \
    $'changed a.py\nstatus 0' 'a file of the working folder'
  holds a.py "# $mit\n#\n# By a path\n"
}

# Options that don't go together, and those that are wanted
options() {
  local one=() change
  files a.py "# $mit\n"
  text good 'Good words\n'
  excludes '--remove-text <FILE>' --everywhere amend --remove-text "$texts/good" --everywhere a.py
  excludes --everywhere --remove-text amend --everywhere --remove-text "$texts/good" a.py
  for change in '--replace-license MIT ISC' '--remove-license MIT' '--replace-holder A B' \
    '--remove-holder A' '--replace-contributor A B' '--remove-contributor A' '--until 2026' \
    '--copyright-prefix spdx' "--remove-text $texts/good" --everywhere; do
    read -ra one <<< "$change"
    excludes --remove-header "${one[0]}" amend --remove-header "${one[@]}" a.py
  done
  excludes --everywhere --style amend --everywhere --style c --until 2026 a.py
  told amend --remove-text a.py > "$room/told"
  grep -qF 'PATH' "$room/told" || fail "no path: $(< "$room/told")"
  is "$(told amend --remove-header --check a.py)" $'would change a.py\nstatus 1' 'no other change'
  is "$(told amend --everywhere a.py)" $'reuse-undo: nothing to amend\nstatus 2' 'no change'
  told annotate -l MIT --remove-text "$texts/good" a.py > "$room/told"
  grep -qF 'unexpected argument' "$room/told" || fail "of annotate: $(< "$room/told")"
  told amend --until 2026 --text "$texts/good" a.py > "$room/told"
  grep -qF 'unexpected argument' "$room/told" || fail "of amend: $(< "$room/told")"
}

added
closers
taken_out
headers
bad_texts
inputs
options
random=$(python3 "$here/random_header_texts.py" "$program" "$room" "${2:-300}" "${SEED:-1}" 2>&1) ||
  fail "$random"
echo "$made calls that change headers are seen, made and taken back, and $refused are refused;" \
  "random trees: $random"
