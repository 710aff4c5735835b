#!/usr/bin/env bash
# Lists the names of a tree that have no comment style, as lines and as JSON, adds ready styles for
# them, and takes that back byte for byte: in an empty tree, in one with styles and comments of its
# own, in dry runs, of some of the files, from a folder, and, run as root, as nobody. Ends with
# status 1 at the first fault.
# usage: tests/styles_command.sh PROGRAM
# The tags below are data: REUSE-IgnoreStart
set -euo pipefail
. "$(dirname "$0")/common.sh"
wants patch patch
top=$(realpath "$(dirname "$0")/..")
tree=$room/tree
calls=0

# The call ends with this status, and prints these lines with escapes; a refusal on standard error.
tells() {
  local wanted=$1 lines=$2 status=0
  shift 2
  calls=$((calls + 1))
  (cd "$tree" && exec "$program" "$@") > "$room/out" 2> "$room/error" || status=$?
  printf %b "$lines" > "$room/wanted"
  if ((wanted == 0)); then
    [[ ! -s $room/error ]] || fail "$*: it tells $(cat "$room/error")"
    cmp -s "$room/wanted" "$room/out" || fail "$*: it prints $(cat "$room/out")"
  elif [[ $lines == 'reuse-undo: '* ]]; then
    cmp -s "$room/wanted" "$room/error" || fail "$*: it tells $(cat "$room/error")"
  else
    cmp -s "$room/wanted" "$room/out" || fail "$*: it prints $(cat "$room/out")"
  fi
  [[ $status == "$wanted" ]] || fail "$*: status $status"
}

# A file of the tree has this text with escapes.
holds() {
  printf %b "$2" | cmp -s - "$tree/$1" || fail "$1: $(cat "$tree/$1")"
}

# What `styles --add` did is taken back, and made again.
undone() {
  tells 0 "$(printf 'undone %s\\n' "$@")" undo
  mkdir -p "$room/before/.reuse"
  diff -r -x undo "$room/before" "$tree" > "$room/diff" || fail "undo: $(cat "$room/diff")"
  tells 0 "$(printf 'redone %s\\n' "$@")" redo
  tells 0 "$(printf 'undone %s\\n' "$@")" undo
}

# A tree with names that the table of the program knows, with ready ones, and with others; with a
# file that is no text, one beside which a neighbour stands, and one that isn't covered
make_tree() {
  files a.py 'x\n' b.mjs 'x\n' src/c.MJS 'x\n' src/d.mjs 'x\n' e.j2 'x\n' f.unheard 'x\n' \
    g.unheard '\0\xff' h.unheard 'x\n' h.unheard.license 'x\n' LICENSES/MIT.txt 'x\n' \
    src/Jenkinsfile 'x\n' src/noending 'x\n'
  rm -rf "$room/before"
  cp -r "$tree" "$room/before"
}
all='1 .j2 jinja\n3 .mjs c\n1 .unheard -\n1 Jenkinsfile c\n1 noending -\n'

list() {
  make_tree
  tells 0 "$all" styles
  tells 0 "$all" styles .
  tells 0 '2 .MJS c\n1 Jenkinsfile c\n1 noending -\n' styles src
  tells 0 '1 .j2 jinja\n' styles e.j2 a.py
  tells 0 '' styles a.py LICENSES/MIT.txt
  tells 0 '1 .j2 jinja\n1 .mjs c\n1 .unheard -\n' styles --exclude src
  tells 0 "${all/3 .mjs/1 .mjs}" styles --exclude 'src/*.mjs' --exclude '**/*.MJS'
  printf 'src/d.mjs\nsrc/noending\nnone\n' > "$room/files"
  tells 0 '1 .mjs c\n1 noending -\n' styles --files-from "$room/files"
  tells 0 '1 .mjs c\n' styles --files-from "$room/files" --exclude '**/noending' src
  tells 0 "{\"count\":1,\"name\":\".unheard\",\"style\":null}\n" styles --json f.unheard
  tells 0 "{\"count\":2,\"name\":\".MJS\",\"style\":\"c\"}\n" styles --json src --exclude '**/*file' \
    --exclude '**/noending'
  tells 1 'reuse-undo: none: no such path\n' styles none
  tells 1 'reuse-undo: none: no such path\n' styles --json none e.j2
  [[ ! -e $tree/.reuse ]] || fail 'a list makes .reuse'
  (cd "$tree/src" && "$program" --up styles) > "$room/out" 2> "$room/error" &&
    fail '--up finds a tree'
  mkdir "$tree/.reuse"
  (cd "$tree/src" && "$program" --up styles) > "$room/out" || fail '--up'
  printf '2 .MJS c\n1 Jenkinsfile c\n1 noending -\n' | cmp - "$room/out" || fail '--up'
  files b.css 'x\n'
  tells 0 '' styles
}

add() {
  local styles comments
  styles='version = 1\n\n[styles]\n".j2" = "jinja"\n".mjs" = "c"\n"Jenkinsfile" = "c"\n'
  make_tree
  tells 0 'would change .reuse/comments.toml\nwould change .reuse/styles.toml\n' styles --add -n
  tells 1 'would change .reuse/comments.toml\nwould change .reuse/styles.toml\n' styles --add --check
  tells 0 '{"outcome":"would change","path":".reuse/styles.toml"}\n' styles --add -n --json b.mjs
  [[ ! -e $tree/.reuse ]] || fail 'a dry run makes .reuse'
  tells 1 'changed .reuse/comments.toml\nchanged .reuse/styles.toml\n' styles --add \
    --exit-non-zero-on-change
  holds .reuse/styles.toml "$styles"
  comments=$(cat "$tree/.reuse/comments.toml")
  [[ $comments == 'version = 1'*'[comments.jinja]'* && $comments != *'[comments.rst]'* ]] ||
    fail ".reuse/comments.toml: $comments"
  tells 0 '1 .unheard -\n1 noending -\n' styles
  tells 0 'nothing changed\n' styles --add
  tells 0 'nothing changed\n' styles --add --exit-non-zero-on-change
  tells 0 'changed b.mjs\nchanged e.j2\n' annotate -l MIT b.mjs e.j2
  tells 0 'undone b.mjs\nundone e.j2\n' undo
  rm -rf "$tree"
  cp -r "$room/before" "$tree"
  tells 0 'changed .reuse/comments.toml\nchanged .reuse/styles.toml\n' styles --add --no-sync
  tells 0 "1 $(date -u +%F) styles 2 done\n" log
  undone .reuse/comments.toml .reuse/styles.toml
  tells 0 'changed .reuse/comments.toml\nchanged .reuse/styles.toml\n' styles --add src
  holds .reuse/styles.toml 'version = 1\n\n[styles]\n".MJS" = "c"\n"Jenkinsfile" = "c"\n'
  tells 0 'nothing changed\n' styles --add b.mjs
  make_tree
  tells 1 'reuse-undo: none: no such path\n' styles --add none e.j2
  tells 0 'nothing changed\n' styles --add f.unheard
  printf 'src/d.mjs\n' > "$room/files"
  tells 0 'changed .reuse/styles.toml\n' styles --add --files-from "$room/files" --exclude b.mjs
  holds .reuse/styles.toml 'version = 1\n\n[styles]\n".mjs" = "c"\n'
}

# A tree with styles and comments of its own keeps each byte of them.
own() {
  local styles='version = 1\n[styles]\n".unheard" = "dots"\n# mine\n".J2" = "html"'
  local comments='version = 1\n[comments.dots]\nline = ".."\n'
  files a.unheard 'x\n' b.j2 'x\n' c.mjs 'x\n' d.rst 'x\n' .reuse/styles.toml "$styles" \
    .reuse/comments.toml "$comments"
  rm -rf "$room/before"
  cp -r "$tree" "$room/before"
  tells 0 '1 .mjs c\n1 .rst rst\n' styles
  tells 0 'changed .reuse/comments.toml\nchanged .reuse/styles.toml\n' styles --add
  holds .reuse/styles.toml "$styles\n\".mjs\" = \"c\"\n\".rst\" = \"rst\"\n"
  printf %b "$comments" > "$room/wanted"
  cmp -s -n "$(wc -c < "$room/wanted")" "$room/wanted" "$tree/.reuse/comments.toml" ||
    fail "own comments: $(cat "$tree/.reuse/comments.toml")"
  tells 0 '' styles
  undone .reuse/comments.toml .reuse/styles.toml
  # A comment of the same name stands
  printf '[comments.rst]\nline = "REM"\n' >> "$tree/.reuse/comments.toml"
  tells 0 'changed .reuse/styles.toml\n' styles --add
  # The same diff as patch takes
  rm -rf "$tree"
  cp -r "$room/before" "$tree"
  (cd "$tree" && "$program" styles --add -n --diff) | sed '/^would change /d' > "$room/patch"
  (cd "$room/before" && patch -s -p1 < "$room/patch") || fail 'patch'
  tells 0 'changed .reuse/comments.toml\nchanged .reuse/styles.toml\n' styles --add
  diff -r -x undo "$room/before" "$tree" > "$room/diff" || fail "patch: $(cat "$room/diff")"
}

# Names of files whose first line a header could break are listed, if a ready style keeps that in
# front; and scripts without an ending get rules by their first line.
kept() {
  files a.md '---\ntitle: x\n---\n# Head\n' b.md 'x\n' c.css '@charset "utf-8";\n' \
    d.rs '#![no_std]\n' Dockerfile.dev 'FROM x\n' run '#!/bin/sh\nx\n' walk '#!/usr/bin/env node\nx\n' \
    words 'x\n'
  rm -rf "$room/before"
  cp -r "$tree" "$room/before"
  tells 0 '1 .css stylesheet\n1 .md markdown\n1 Dockerfile.dev docker\n1 run -\n1 walk -\n1 words -\n' \
    styles
  tells 0 '1 .md markdown\n' styles a.md b.md d.rs
  tells 0 'nothing changed\n' styles --add b.md d.rs
  tells 0 'changed .reuse/comments.toml\nchanged .reuse/styles.toml\n' styles --add
  holds .reuse/styles.toml 'version = 1\n\n[styles]\n".css" = "stylesheet"\n".md" = "markdown"\n'"$(
  )"'"Dockerfile.dev" = "docker"\n'
  tells 0 '1 words -\n' styles
  tells 0 'nothing changed\n' styles --add
  tells 0 'changed a.md\nchanged c.css\nchanged run\nchanged walk\n' annotate -l MIT a.md c.css run walk
  [[ $(head -n 1 "$tree/a.md") == --- ]] || fail 'front matter'
  [[ $(head -n 1 "$tree/c.css") == @charset* ]] || fail 'a charset'
  [[ $(sed -n '1p;3p' "$tree/run") == '#!/bin/sh'$'\n''# SPDX-License-Identifier: MIT' ]] || fail 'a script'
  grep -q '^// SPDX' "$tree/walk" || fail 'a script of node'
  tells 0 'undone a.md\nundone c.css\nundone run\nundone walk\n' undo
  undone .reuse/comments.toml .reuse/styles.toml
}

# Files that begin with markup, where their style is that of another language, get rules by their
# first line.
markup() {
  local rules
  files a.php '<h1>Hello</h1>\n<?php echo 1;\n' B.PHP '\n<?php\necho 1;\n' c.php '<?php\necho 1;\n' \
    d.php '#!/usr/bin/php\n<?php\necho 1;\n' e.php "<?php include 'c.php'; ?>\n<p>\n" f.php 'Hello\n' \
    a.ts '<?xml version="1.0"?>\n<TS/>\n' b.ts 'let a = 1;\n' c.html '<p>\n' d.js '<p>\n'
  rm -rf "$room/before"
  cp -r "$tree" "$room/before"
  tells 0 '3 .PHP rules\n1 .ts rules\n' styles
  tells 0 '{"count":1,"name":".ts","style":"rules"}\n' styles --json a.ts b.ts c.php
  tells 0 '' styles b.ts c.php d.php d.js
  tells 0 'nothing changed\n' styles --add b.ts c.php d.php d.js
  tells 0 'changed .reuse/comments.toml\n' styles --add
  rules=$(sed -n '/# PHP/,$p' "$tree/.reuse/comments.toml")
  [[ $rules == "$(sed -n '/# PHP/,$p' "$top/share/comments.toml")" ]] || fail "the rules: $rules"
  tells 0 '' styles
  tells 0 'nothing changed\n' styles --add
  tells 0 "$(printf 'changed %s\\n' B.PHP.license a.php.license a.ts b.ts c.php d.php e.php.license \
    f.php.license)" annotate -l MIT B.PHP a.php a.ts b.ts c.php d.php e.php f.php
  [[ $(head -n 3 "$tree/a.ts") == '<?xml version="1.0"?>'$'\n\n''<!--' ]] || fail 'XML'
  [[ $(sed -n 3p "$tree/c.php") == '// SPDX'* && $(sed -n 4p "$tree/d.php") == '// SPDX'* ]] || fail 'PHP'
  [[ $(head -n 1 "$tree/b.ts") == '// SPDX'* ]] || fail 'TypeScript'
  "$program" --root "$tree" undo > "$room/out" || fail 'undo'
  undone .reuse/comments.toml
  # Rules of the tree for such names stay alone
  files a.php '<p>\n' a.ts '<TS/>\n' .reuse/comments.toml \
    'version = 1\n[[rules]]\nname = "*.php"\nstyle = "c"\n'
  tells 0 'changed .reuse/comments.toml\n' styles --add
  [[ $(grep -c '^name' "$tree/.reuse/comments.toml") == 2 ]] || fail 'own rules'
  tells 0 '1 .php rules\n' styles
  tells 0 'nothing changed\n' styles --add
}

refused() {
  local wrong
  make_tree
  mkdir "$tree/.reuse"
  for wrong in '= 1' 'version = 2\n' 'version = 1\n[styles]\n".x" = "none"\n'; do
    printf %b "$wrong" > "$tree/.reuse/styles.toml"
    tells 1 'reuse-undo: .reuse/styles.toml: bad styles\n' styles
    tells 1 'reuse-undo: .reuse/styles.toml: bad styles\n' styles --add
  done
  rm "$tree/.reuse/styles.toml"
  printf '[x]\n' > "$tree/.reuse/comments.toml"
  tells 1 'reuse-undo: .reuse/comments.toml: bad comments\n' styles
  tells 1 'reuse-undo: .reuse/comments.toml: bad comments\n' styles --add
  # Good files to which no line can be added
  make_tree
  mkdir "$tree/.reuse"
  for wrong in 'version = 1\nstyles = { ".x" = "c" }\n' 'version = 1\nstyles.".x" = "c"\n'; do
    printf %b "$wrong" > "$tree/.reuse/styles.toml"
    tells 0 "$all" styles
    tells 1 'reuse-undo: .reuse/styles.toml: cannot be amended\n' styles --add
    holds .reuse/styles.toml "$wrong"
  done
  [[ $("$program" --root "$tree" log | wc -l) == 0 ]] || fail 'a refused call is a step'
}

# Words that don't go together
words() {
  local word
  make_tree
  for word in '--add --all' '--all --json' '--all src' '--all --files-from f' '--all --exclude g' \
    --comments -n --check --diff '--add --diff' '--add --json' --exit-non-zero-on-change \
    '--add -n --diff --json' '-r .' '--style c'; do
    # shellcheck disable=SC2086
    ! (cd "$tree" && "$program" styles $word) > "$room/out" 2> "$room/error" || fail "styles $word"
    grep -q '^error: ' "$room/error" || fail "styles $word: $(cat "$room/error")"
    calls=$((calls + 1))
  done
}

# The ready tables are those of share/, and give styles to just the names that are listed with one.
tables() {
  make_tree
  mkdir "$tree/.reuse"
  "$program" styles --all > "$tree/.reuse/styles.toml" || fail '--all'
  "$program" styles --all --comments > "$tree/.reuse/comments.toml" || fail '--all --comments'
  for name in styles comments; do
    cmp "$top/share/$name.toml" "$tree/.reuse/$name.toml" || fail "share/$name.toml"
  done
  tells 0 '1 .unheard -\n1 noending -\n' styles
  tells 0 'nothing changed\n' styles --add
}

# Nobody may add styles in a tree of nobody's.
as_nobody() {
  [[ $(id -u) == 0 ]] && command -v setpriv > /dev/null || return 0
  make_tree
  chmod 755 "$room"
  chown -R 65534:65534 "$tree"
  cp "$program" "$room/program"
  chmod 755 "$room/program"
  setpriv --reuid 65534 --regid 65534 --clear-groups "$room/program" --root "$tree" styles --add \
    > "$room/out" || fail 'as nobody'
  [[ $(stat -c %u "$tree/.reuse/styles.toml") == 65534 ]] || fail 'as nobody: the owner'
  setpriv --reuid 65534 --regid 65534 --clear-groups "$room/program" --root "$tree" undo \
    > "$room/out" || fail 'as nobody: undo'
  [[ ! -e $tree/.reuse/styles.toml ]] || fail 'as nobody: undo leaves the styles'
}

list
add
own
kept
markup
refused
words
tables
as_nobody
echo "$calls calls of styles print and leave what is wanted"
