#!/usr/bin/env bash
# Tries each row of docs/FROM_REUSE.md: the same files and the same words, or those that the row
# gives in their place, for Debian's reuse and for the program. Ends with status 1 at the first
# fault, also where a row isn't tried or one that is tried isn't in the document.
# usage: tests/from_reuse.sh PROGRAM
set -euo pipefail
# The tags below are data: REUSE-IgnoreStart
. "$(dirname "$0")/common.sh"
wants reuse reuse
document=$(dirname "$0")/../docs/FROM_REUSE.md
theirs=$room/theirs
ours=$room/ours
tag='# SPDX-License-Identifier: MIT'
jane='# SPDX-FileCopyrightText: 2024 Jane Doe'
export XDG_CACHE_HOME=$room LC_ALL=C.UTF-8

# The row with this first cell is tried from here on, by files, each given by its path and its text
# with escapes.
row() {
  echo "$1" >> "$room/rows"
  what=$1
  shift
  rm -rf "$theirs" "$ours"
  mkdir "$theirs" "$ours"
  git -C "$theirs" init -q
  while (($#)); do
    mkdir -p "$(dirname "$theirs/$1")" "$(dirname "$ours/$1")"
    printf %b "$2" | tee "$theirs/$1" > "$ours/$1"
    shift 2
  done
}

# A call ends with this status; where the last argument before `:` is a text, it is told.
call() {
  local status=$1 text=$2 found=0
  shift 2
  "$@" > "$room/out" 2>&1 || found=$?
  [[ $found == "$status" ]] || fail "$what: $*: status $found, not $status: $(cat "$room/out")"
  grep -qF -- "$text" "$room/out" || fail "$what: $*: it tells $(cat "$room/out")"
}
tool() { (cd "$theirs" && call "$1" "$2" reuse "${@:3}"); }
program() { (cd "$ours" && call "$1" "$2" "$program" "${@:3}"); }

# Both make the same call.
both() {
  tool 0 '' "$@"
  program 0 '' "$@"
}

# A file of a tree has this text, given with escapes.
has() { printf %b "$3" | cmp -s - "$1/$2" || fail "$what: $1/$2 is: $(cat "$1/$2")"; }
both_have() {
  has "$theirs" "$1" "$2"
  has "$ours" "$1" "$2"
}
lacks() { [[ ! -e $1/$2 ]] || fail "$what: $1/$2 is there"; }

options() {
  row '`-c`, `--copyright TEXT`; `-l`, `--license EXPR`; `-y`, `--year YEAR`' a.py 'x\n'
  both annotate -c 'Jane Doe' -l 'MIT OR ISC' -y 2019 -y 2024 a.py
  local years='# SPDX-FileCopyrightText: 2019 - 2024 Jane Doe\n'
  both_have a.py "$years"'#\n# SPDX-License-Identifier: MIT OR ISC\n\nx\n'

  row '`--year 2019-2024`' a.py 'x\n'
  tool 0 '' annotate -c 'Jane Doe' --year 2019-2024 a.py
  program 2 'bad year: 2019-2024' annotate -c 'Jane Doe' --year 2019-2024 a.py
  program 0 '' annotate -c 'Jane Doe' --year 2019 --year 2024 a.py
  has "$theirs" a.py '# SPDX-FileCopyrightText: 2019-2024 Jane Doe\n\nx\n'
  has "$ours" a.py '# SPDX-FileCopyrightText: 2019 - 2024 Jane Doe\n\nx\n'

  row '`--exclude-year`' a.py 'x\n'
  both annotate -c 'Jane Doe' --exclude-year a.py
  both_have a.py '# SPDX-FileCopyrightText: Jane Doe\n\nx\n'
  tool 2 'mutually exclusive' annotate -c 'Jane Doe' --exclude-year -y 2024 a.py
  program 2 -- annotate -c 'Jane Doe' --exclude-year -y 2024 a.py

  local style
  row '`--copyright-style NAME`'
  for style in spdx spdx-symbol string string-c string-symbol symbol; do
    echo x | tee "$theirs/$style.py" > "$ours/$style.py"
    both annotate -c 'Jane Doe' -y 2024 --copyright-style $style $style.py
    cmp -s "$theirs/$style.py" "$ours/$style.py" || fail "$what: $style"
  done

  row '`--merge-copyrights`' a.py '# SPDX-FileCopyrightText: 2019 Jane Doe\n\nx\n'
  both annotate -c 'Jane Doe' -y 2024 --merge-copyrights a.py
  both_have a.py '# SPDX-FileCopyrightText: 2019 - 2024 Jane Doe\n\nx\n'

  row '`-s`, `--style NAME`' script 'x\n' b.rst 'x\n'
  both annotate -l MIT --style python script
  both_have script "$tag\n\nx\n"
  tool 0 '' annotate -l MIT --style rst b.rst
  program 2 'invalid value' annotate -l MIT --style rst b.rst
  program 0 '' annotate -l MIT --force-dot-license b.rst
  has "$ours" b.rst.license 'SPDX-License-Identifier: MIT\n'

  local template='Part of Demo.\n\n{% for line in copyright_lines %}\n{{ line }}\n{% endfor %}\n'
  template+='{% for expression in spdx_expressions %}\n'
  template+='SPDX-License-Identifier: {{ expression }}\n{% endfor %}\n'
  row '`--template NAME`' a.py '# Part of Demo.\n# SPDX-License-Identifier: MIT\n\nx\n' \
    .reuse/templates/demo.jinja2 "$template"
  tool 0 '' annotate -c 'Jane Doe' -y 2024 --template demo a.py
  program 2 'unexpected argument' annotate -c 'Jane Doe' -y 2024 --template demo a.py
  program 0 '' annotate -c 'Jane Doe' -y 2024 a.py
  grep -q 'Part of Demo' "$theirs/a.py" || fail "$what: the template is not used"
  has "$ours" a.py "$jane\n#\n$tag\n#\n# Part of Demo.\n\nx\n"

  row '`--single-line`, `--multi-line`' a.c 'x\n' a.py 'x\n'
  both annotate -l MIT --multi-line a.c
  both_have a.c '/*\n * SPDX-License-Identifier: MIT\n */\n\nx\n'
  tool 2 'does not support multi-line' annotate -l MIT --multi-line a.py
  program 1 'a.py: no such form' annotate -l MIT --multi-line a.py

  row '`--no-replace`' a.py "$tag\n\nx\n"
  both annotate -l ISC --no-replace a.py
  both_have a.py "# SPDX-License-Identifier: ISC\n\n$tag\n\nx\n"

  row '`--force-dot-license`' a.py 'x\n'
  both annotate -l MIT --force-dot-license a.py
  both_have a.py 'x\n'
  both_have a.py.license 'SPDX-License-Identifier: MIT\n'

  row '`--explicit-license`' a.py 'x\n'
  tool 0 deprecated annotate -l MIT --explicit-license a.py
  program 2 'unexpected argument' annotate -l MIT --explicit-license a.py

  row '`--skip-unrecognised`' a.py 'x\n' a.xyz 'x\n'
  both annotate -l MIT --skip-unrecognised a.py a.xyz
  both_have a.py "$tag\n\nx\n"
  both_have a.xyz 'x\n'

  row '`--skip-existing`' a.py "$tag\n\nx\n" b.py '"""\nSPDX-License-Identifier: MIT\n"""\n'
  both annotate -l ISC --skip-existing a.py b.py
  both_have a.py "$tag\n\nx\n"
  has "$theirs" b.py '"""\nSPDX-License-Identifier: MIT\n"""\n'
  has "$ours" b.py '# SPDX-License-Identifier: ISC\n\n"""\nSPDX-License-Identifier: MIT\n"""\n'

  row '`-r`, `--recursive`' src/a.py 'x\n' src/build/b.py 'x\n' .gitignore 'build/\n' src/empty.py \
    ''
  git -C "$theirs" add -A
  both annotate -l MIT -r src
  both_have src/a.py "$tag\n\nx\n"
  has "$theirs" src/build/b.py 'x\n'
  has "$ours" src/build/b.py "$tag\n\nx\n"
  has "$theirs" src/empty.py ''
  has "$ours" src/empty.py "$tag\n"

  row '`addheader`' a.py 'x\n'
  tool 0 deprecated addheader -l MIT a.py
  program 2 'unrecognized subcommand' addheader -l MIT a.py

  row '`--root PATH`' src/a.py 'x\n'
  (cd "$theirs/src" && call 0 '' reuse annotate -l MIT a.py)
  (cd "$ours/src" && call 0 '' "$program" --root .. annotate -l MIT src/a.py)
  both_have src/a.py "$tag\n\nx\n"
}

habits() {
  row 'other lines of an old header' a.py '# Tool.\n#\n# SPDX-License-Identifier: MIT\n\nx\n'
  both annotate -c 'Jane Doe' -y 2024 a.py
  has "$theirs" a.py "$jane\n#\n$tag\n\nx\n"
  has "$ours" a.py "$jane\n#\n$tag\n#\n# Tool.\n\nx\n"

  row 'empty lines round the header' a.py '\n\n\nx\n'
  both annotate -l MIT a.py
  has "$theirs" a.py "$tag\n\nx\n"
  has "$ours" a.py "$tag\n\n\n\nx\n"

  row 'a byte order mark at the start' a.py '\0357\0273\0277x\n'
  both annotate -l MIT a.py
  has "$theirs" a.py "$tag\n\n\0357\0273\0277x\n"
  has "$ours" a.py "\0357\0273\0277$tag\n\nx\n"

  row 'a name that is not known' a.py 'x\n' a.xyz 'x\n'
  tool 2 'a.xyz' annotate -l MIT a.py a.xyz
  program 1 'a.xyz: unrecognised' annotate -l MIT a.py a.xyz
  both_have a.py 'x\n'
  program 0 '' annotate -l MIT --fallback-dot-license a.py a.xyz
  has "$ours" a.xyz.license 'SPDX-License-Identifier: MIT\n'

  row 'one file of several fails' a.py 'x\n' b.html '<p>\n' c.py 'x\n'
  tool 1 'Could not create comment' annotate -c 'A --> B' -y 2024 a.py b.html c.py
  program 1 'b.html: holds the closer' annotate -c 'A --> B' -y 2024 a.py b.html c.py
  grep -q SPDX "$theirs/a.py" "$theirs/c.py" || fail "$what: the tool changes nothing"
  has "$ours" a.py 'x\n'

  row 'pictures and other binaries' p.png '\0211\0' a.json '{}\n'
  both annotate -l MIT p.png a.json
  both_have p.png.license 'SPDX-License-Identifier: MIT\n'
  both_have a.json.license 'SPDX-License-Identifier: MIT\n'

  row 'licence texts and metadata' REUSE.toml 'version = 1\n' LICENSES/MIT.py 'x\n'
  tool 0 '' annotate -l MIT REUSE.toml
  program 1 'REUSE.toml: not covered' annotate -l MIT REUSE.toml
  program 1 'LICENSES/MIT.py: not covered' annotate -l MIT LICENSES/MIT.py

  row 'names that the tool knows' a.adoc 'x\n' a.f90 'x\n'
  tool 0 '' annotate -l MIT a.adoc a.f90
  program 1 'a.adoc: unrecognised' annotate -l MIT a.adoc
  mkdir "$ours/.reuse"
  cp "$(dirname "$0")"/../share/{styles,comments}.toml "$ours/.reuse"
  program 0 '' annotate -l MIT a.adoc
  both_have a.adoc "// SPDX-License-Identifier: MIT\n\nx\n"
  program 0 '' annotate -l MIT a.f90

  row 'comments of `.el` and `.scala`' a.el 'x\n' a.scala 'x\n'
  both annotate -l MIT a.el a.scala
  has "$theirs" a.el '; SPDX-License-Identifier: MIT\n\nx\n'
  has "$ours" a.el ';; SPDX-License-Identifier: MIT\n\nx\n'
  has "$theirs" a.scala "$tag\n\nx\n"
  has "$ours" a.scala '// SPDX-License-Identifier: MIT\n\nx\n'

  row 'seeing it before' a.py 'x\n' a.xyz 'x\n'
  tool 2 'unrecognized arguments' annotate -l MIT --dry-run a.py
  program 0 'would change a.py' annotate -l MIT --dry-run a.py
  has "$ours" a.py 'x\n'

  row 'taking it back' a.py 'x\n'
  both annotate -l MIT a.py
  tool 2 'invalid choice' undo
  program 0 'undone a.py' undo
  has "$ours" a.py 'x\n'
}

changes() {
  local file
  row 'another licence' a.py "$tag\n\nx\n"
  tool 0 '' annotate -l ISC a.py
  has "$theirs" a.py "# SPDX-License-Identifier: ISC\n$tag\n\nx\n"
  program 0 'changed a.py' amend --replace-license MIT ISC a.py
  has "$ours" a.py '# SPDX-License-Identifier: ISC\n\nx\n'

  row 'another name of a holder' a.py "$jane\n\nx\n"
  tool 0 '' annotate -c 'Jane Roe' -y 2024 a.py
  has "$theirs" a.py "$jane\n# SPDX-FileCopyrightText: 2024 Jane Roe\n\nx\n"
  program 0 'changed a.py' amend --replace-holder 'Jane Doe' 'Jane Roe' a.py
  has "$ours" a.py '# SPDX-FileCopyrightText: 2024 Jane Roe\n\nx\n'

  row 'years up to date' a.py "$jane\n\nx\n" b.py "$tag\n\nx\n"
  tool 0 '' annotate -c 'Jane Doe' -y 2026 --merge-copyrights a.py b.py
  has "$theirs" a.py '# SPDX-FileCopyrightText: 2024 - 2026 Jane Doe\n\nx\n'
  grep -q 'Jane Doe' "$theirs/b.py" || fail "$what: the tool leaves a file without her"
  program 0 'changed a.py' amend --until 2026 --holder 'Jane Doe' a.py b.py
  has "$ours" a.py '# SPDX-FileCopyrightText: 2024 - 2026 Jane Doe\n\nx\n'
  has "$ours" b.py "$tag\n\nx\n"

  row 'a contributor, holder or licence goes' \
    a.py "$jane\n# SPDX-FileContributor: Joe Bloggs\n#\n$tag\n\nx\n"
  tool 2 'unrecognized arguments' annotate -l MIT --remove-contributor=Joe a.py
  program 0 'changed a.py' amend --remove-contributor 'Joe Bloggs' a.py
  has "$ours" a.py "$jane\n#\n$tag\n\nx\n"

  row 'tags outside of the header' a.py "$tag\n\nx = 1  # SPDX-License-Identifier: ISC\n" \
    script 'x\n# SPDX-License-Identifier: ISC\n'
  for file in a.py script; do
    tool 0 "FileName: ./$file" spdx
    [[ $(grep -A 9 -xF "FileName: ./$file" "$room/out" | grep -c ': ISC$') == 1 ]] ||
      fail "$what: the tool doesn't read $file: $(cat "$room/out")"
    program 0 "left $file" amend --replace-license ISC 0BSD a.py script
  done
  has "$ours" script 'x\n# SPDX-License-Identifier: ISC\n'

  row 'a text beside the tags' a.py "$tag\n\nx\n" b.py "$tag\n#\n# A note.\n\nx\n"
  echo 'A note.' > "$room/note.txt"
  tool 2 'unrecognized arguments' annotate -l MIT --text=../note.txt a.py
  program 0 'changed a.py' annotate -l MIT --text ../note.txt a.py b.py
  has "$ours" a.py "$tag\n#\n# A note.\n\nx\n"
  program 0 'changed b.py' amend --remove-text ../note.txt a.py b.py
  for file in a.py b.py; do has "$ours" "$file" "$tag\n\nx\n"; done

  row 'the whole header goes' a.py "$tag\n\nx\n"
  tool 2 'unrecognized arguments' annotate -l MIT --remove-header a.py
  program 0 'changed a.py' amend --remove-header a.py
  has "$ours" a.py 'x\n'
}

other_words() {
  # No network is asked: the proxy isn't there.
  row '`download ID`'
  export http_proxy=http://127.0.0.1:9 https_proxy=http://127.0.0.1:9
  tool 1 'Failed to download' download MIT
  program 2 'required' download MIT
  mkdir "$room/texts"
  echo text > "$room/texts/MIT.txt"
  program 0 'changed LICENSES/MIT.txt' download --texts ../texts MIT

  row '`download --all`, `download --output FILE`' a.py "$tag\n\nx\n"
  tool 1 'Failed to download' download --all
  program 2 'unexpected argument' download --texts ../texts --all MIT
  program 2 'unexpected argument' download --texts ../texts --output MIT.txt MIT

  row '`lint`, `spdx`, `init`, `supported-licenses`' a.py 'x\n'
  tool 1 'no copyright and licensing information' lint
  tool 0 SPDXVersion spdx
  tool 0 Apache-2.0 supported-licenses
  for word in lint spdx init supported-licenses; do program 2 'unrecognized subcommand' $word; done

  row '`convert-dep5`'
  tool 2 'invalid choice' convert-dep5
  make_dep5 "$ours"
  program 0 'changed REUSE.toml' convert-dep5
}

# The first cells of a document's tables, but for their heads, and for the table of comment styles,
# whose names tests/style_names.sh tries
cells() {
  sed '/^## Comment styles/,/^## Habits/d' "$1" | sed -nE '/^\|/{s/^\| ([^|]*) \|.*/\1/p}' |
    grep -vxE -- '-+|the reuse tool|habit|task|.*---.*'
}

options
habits
changes
other_words
diff <(sort "$room/rows") <(cells "$document" | sort) ||
  fail 'the rows that were tried are not those of the document'
echo "$(wc -l < "$room/rows") rows are as the document says"
