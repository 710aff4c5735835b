#!/usr/bin/env bash
# A tree with a file of each name that the program knows by itself, or that share/styles.toml and
# share/comments.toml give a style: annotate writes a header or a neighbour for each, which it finds
# again, and undo takes all back byte for byte. Annotated samples of common languages still pass
# their compilers or interpreters, as far as those are there. Ends with status 1 at the first fault.
# usage: tests/styles.sh PROGRAM
# The tags below are data: REUSE-IgnoreStart
set -euo pipefail
. "$(dirname "$0")/common.sh"
top=$(realpath "$(dirname "$0")/..")
plain=$room/plain
tree=$room/tree

# The names: those of the sources, and of the ready names those of a style of the program, and those
# of a ready comment
known() { sed -nE 's/^    \(b"([^"]+)", TableKind::.*/\1/p' "$top/crates/reuse_style/src/table.rt"; }
comments() { sed -nE 's/^\[comments\.(.*)\]$/\1/p' "$top/share/comments.toml" | paste -sd '|'; }
own() { grep -vE "^\".*\" = \"($(comments))\"$" "$top/share/styles.toml" | sed -nE 's/^"([^"]+)" = .*/\1/p'; }
more() { sed -nE "s/^\"([^\"]+)\" = \"($(comments))\"$/\1/p" "$top/share/styles.toml"; }

# Gives a tree both ready files.
make_ready() {
  mkdir -p "$1/.reuse"
  cp "$top/share/styles.toml" "$top/share/comments.toml" "$1/.reuse/"
}

# Puts a file of each name from standard input into a folder of its own, so that names that differ
# in case alone don't meet.
make_files() {
  local name folder k=0
  while IFS= read -r name; do
    k=$((k + 1))
    folder=$plain/$1$k
    mkdir -p "$folder"
    if [[ $name == .* ]]; then name=x$name; fi
    printf 'x\n' > "$folder/$name"
  done
}

annotate() { "$program" --root "$tree" annotate -c "Jane Doe" -y 2024 -l MIT "$@"; }

# Takes the last step back, after which all is as in the other folder.
taken_back() {
  "$program" --root "$tree" undo > "$room/out"
  diff -r -x undo "$1" "$tree" > "$room/diff" || fail "undo: $(head -n 3 "$room/diff")"
}

make_ready "$plain"
known > "$room/known"
own > "$room/own"
more > "$room/more"
[[ $(wc -l < "$room/known") == 58 && $(wc -l < "$room/own") -ge 100 && $(wc -l < "$room/more") -ge 35 ]] ||
  fail 'fewer names than there were'
make_files known < "$room/known"
make_files own < "$room/own"
make_files more < "$room/more"
cp -r "$plain" "$tree"
files=$(find "$plain" -type f -not -path '*/.reuse/*' | wc -l)
annotate -r . > "$room/out"
[[ $(grep -c '^changed ' "$room/out") == "$files" ]] ||
  fail "$files files, $(wc -l < "$room/out") changed"
while read -r _ path; do
  grep -q 'SPDX-License-Identifier: MIT' "$tree/$path" || fail "$path has no header"
done < "$room/out"
[[ $(annotate -r .) == 'nothing changed' ]] || fail 'a header is not found again'
taken_back "$plain"

# A tree's own comments: each of these texts of `.reuse/comments.toml` gives a style, whose header has
# these first lines, is found again, and is taken back. The file has the text `before`, if it is set
own_comment() {
  local keys=$1 wanted=$2
  shift 2
  rm -rf "$plain" "$tree"
  mkdir -p "$plain/.reuse"
  printf 'version = 1\n[comments.own-1]\n%b' "$keys" > "$plain/.reuse/comments.toml"
  printf 'version = 1\n[styles]\n".own" = "own-1"\n' > "$plain/.reuse/styles.toml"
  printf %b "${before:-x\n}" > "$plain/a.own"
  cp -r "$plain" "$tree"
  annotate "$@" a.own > "$room/out" || fail "a.own isn't annotated by $keys"
  printf %b "$wanted" > "$room/wanted"
  cmp "$room/wanted" "$tree/a.own" || fail "$keys: $(cat "$tree/a.own")"
  [[ $(annotate "$@" a.own) == 'nothing changed' ]] || fail "$keys: a header is not found again"
  taken_back "$plain"
}
notice='SPDX-FileCopyrightText: 2024 Jane Doe'
license='SPDX-License-Identifier: MIT'
own_comment 'line = "REM"\n' "REM $notice\nREM\nREM $license\n\nx\n"
own_comment 'line = ".."\nline-lead = "..  "\n' "..  $notice\n..\n..  $license\n\nx\n"
own_comment 'open = "{#"\nclose = "#}"\n' "{#\n$notice\n\n$license\n#}\n\nx\n"
own_comment 'open = "<%"\nclose = "%>"\nmiddle = " %"\nlast = " %>"\n' \
  "<%\n % $notice\n %\n % $license\n %>\n\nx\n"
own_comment 'line = "!"\nopen = "{"\nclose = "}"\nlead = "  "\n' \
  "{\n  $notice\n\n  $license\n}\n\nx\n" --multi-line

# Lines that stay in front of a header: first lines, and front matter if it ends
header="# $notice\n#\n# $license\n"
keys='line = "#"\nfirst-lines = ["# syntax=", "# escape="]\n'
before='# syntax=1\n# escape=2\n#\nx\n' \
  own_comment "$keys" "# syntax=1\n# escape=2\n\n$header\n#\nx\n"
header="<!--\n$notice\n\n$license\n-->\n"
keys='open = "<!--"\nclose = "-->"\nfront-matter = ["---", "..."]\n'
before='---\nt: 1\n...\nx\n' own_comment "$keys" "---\nt: 1\n...\n\n$header\nx\n"
before='---\nx\n' own_comment "$keys" "$header\n---\nx\n"

# A tree's rules: each of these files gets its style by its name or by its first line alone, and the
# header is found again and taken back
rules='version = 1\n[[rules]]\nname = "Dockerfile.*"\nstyle = "python"\n'
rules+='[[rules]]\nfirst-line = "#!*node*"\nstyle = "c"\n'
ruled() {
  local path=$1 before=$2 wanted=$3
  rm -rf "$plain" "$tree"
  mkdir -p "$plain/.reuse"
  printf %b "$rules" > "$plain/.reuse/comments.toml"
  printf %b "$before" > "$plain/$path"
  cp -r "$plain" "$tree"
  annotate "$path" > "$room/out" || fail "$path isn't annotated by a rule"
  printf %b "$wanted" > "$room/wanted"
  cmp "$room/wanted" "$tree/$path" || fail "$path: $(cat "$tree/$path")"
  [[ $(annotate "$path") == 'nothing changed' ]] || fail "$path: a header is not found again"
  taken_back "$plain"
}
ruled dockerfile.dev 'FROM x\n' "# $notice\n#\n# $license\n\nFROM x\n"
ruled run '#!/usr/bin/env node\nx()\n' "#!/usr/bin/env node\n\n// $notice\n//\n// $license\n\nx()\n"

# Samples: a path, the command that takes its file, and the text
samples=0 passed=0
sample() {
  local path=$1 text=$2
  shift 2
  samples=$((samples + 1))
  command -v "$1" > /dev/null || return 0
  rm -rf "$room/sample" "$room/used" "$tree"
  make_ready "$room/sample"
  printf %b "$text" > "$room/sample/$path"
  cp -r "$room/sample" "$tree"
  annotate "$path" > "$room/out" || fail "$path isn't annotated"
  cp -r "$tree" "$room/used"
  (cd "$room/used" && "$@" "$path" > "$room/out" 2>&1) || fail "$* $path: $(head -n 3 "$room/out")"
  taken_back "$room/sample"
  passed=$((passed + 1))
}
sample \
  a.py '#!/usr/bin/env python3\n# coding: utf-8\n"""Text."""\nfrom __future__ import annotations\nprint(1)\n' \
  python3 -m py_compile
sample a.sh '#!/bin/sh\necho 1\n' bash -n
sample a.bash 'echo 1\n' bash -n
sample a.pl '#!/usr/bin/perl\nuse strict;\nprint 1;\n' perl -c
sample a.awk 'BEGIN { print 1 }\n' awk -f
sample Makefile 'all:\n\t@echo 1\n' make -f
sample a.c 'int main(void) { return 0; }\n' gcc -fsyntax-only
sample a.h '#define ONE 1\n' gcc -fsyntax-only
for ending in cc cpp cxx hpp hh hxx inl; do
  sample "a.$ending" 'int one() { return 1; }\n' gcc -x c++ -fsyntax-only
done
sample a.xml '<?xml version="1.0" encoding="UTF-8"?>\n<a/>\n' xmllint --noout
sample a.html '<!DOCTYPE html>\n<p>1</p>\n' xmllint --html --noout
for ending in xsl xslt xsd plist xhtml; do
  sample "a.$ending" '<?xml version="1.0"?>\n<a/>\n' xmllint --noout
done
sample a.js '#!/usr/bin/env node\n"use strict";\nconsole.log(1);\n' node --check
sample a.cjs 'module.exports = 1;\n' node --check
sample a.mjs 'export default 1;\n' node --check
sample a.rb '#!/usr/bin/env ruby\n# frozen_string_literal: true\nputs 1\n' ruby -c
sample Rakefile 'task :default\n' ruby -c
sample a.lua 'print(1)\n' luac -p
sample a.tcl 'puts 1\n' tclsh
sample a.php '<?php\necho 1;\n' php -l
sample a.go 'package a\n' gofmt -e
sample a.rs 'fn main() {}\n' rustc --emit metadata
sample a.f90 'program a\nprint *, 1\nend program\n' gfortran -fsyntax-only
sample a.f '      print *, 1\n      end\n' gfortran -fsyntax-only
sample a.m4 'define(`x'"'"', 1)dnl\nx\n' m4
sample a.css '@charset "UTF-8";\na { color: red }\n' python3 -c \
  'import sys; sys.exit(not open(sys.argv[1]).read().startswith("@charset \"UTF-8\";"))'
sample a.md '---\ntitle: a\n---\nText\n' python3 -c \
  'import sys; sys.exit(open(sys.argv[1]).read().split("\n")[:3] != ["---", "title: a", "---"])'
sample Dockerfile '# syntax=docker/dockerfile:1\nFROM debian\n' python3 -c \
  'import sys; sys.exit(not open(sys.argv[1]).read().startswith("# syntax=docker/dockerfile:1\n"))'
sample a.bat '@echo off\necho 1\n' python3 -c \
  'import sys; sys.exit(not open(sys.argv[1]).read().startswith("@echo off\n"))'
sample a.ftl '<#ftl encoding="utf-8">\n${x}\n' python3 -c \
  'import sys; sys.exit(not open(sys.argv[1]).read().startswith("<#ftl"))'
sample a.rst 'Text\n====\n' rst2html.py
echo "$files names are annotated and taken back; $passed of $samples samples pass their" \
  "languages' own tools, and the others' aren't there"
