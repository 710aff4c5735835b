#!/usr/bin/env bash
# Makes docs/picture.svg, a terminal with calls of the program on a file and what it prints: writes
# the picture to standard output.
# usage: docs/make_picture.sh PROGRAM > docs/picture.svg
set -euo pipefail
program=$(realpath "${1:?"usage: $0 PROGRAM"}")
folder=$(mktemp -d)
trap 'rm -rf "$folder"' EXIT

# Shows a command behind a prompt, and runs it in the folder.
shows() {
  echo "\$ $*"
  (cd "$folder" && PATH=$folder/bin:$PATH && eval "$*")
}

session() {
  shows cat greet.py
  shows reuse-undo annotate -c '"Jane Doe"' -l MIT -y 2019 -y 2024 --dry-run --diff greet.py
  shows reuse-undo annotate -c '"Jane Doe"' -l MIT -y 2019 -y 2024 greet.py
  shows reuse-undo log
  shows reuse-undo undo
  shows cat greet.py
  shows reuse-undo redo
}

mkdir "$folder/bin"
ln -s "$program" "$folder/bin/reuse-undo"
printf '%s\n' '#!/usr/bin/env python3' 'print("Hello")' > "$folder/greet.py"
session | awk '
  { gsub(/&/, "\\&amp;"); gsub(/</, "\\&lt;"); gsub(/>/, "\\&gt;"); lines[NR] = $0 }
  END {
    height = 20 * NR + 28
    printf "<svg xmlns=\"http://www.w3.org/2000/svg\" width=\"820\" height=\"%d\"", height
    printf " viewBox=\"0 0 820 %d\" role=\"img\">\n", height
    printf "<title>reuse-undo on a file: a dry run with its diff, annotate, log, undo and redo"
    print "</title>"
    print "<!-- The tags below are data: REUSE-IgnoreStart -->"
    print "<rect width=\"100%\" height=\"100%\" rx=\"8\" fill=\"#1d2433\"/>"
    printf "<g font-family=\"ui-monospace, Menlo, Consolas, DejaVu Sans Mono, monospace\""
    print " font-size=\"14\" fill=\"#d8dee9\">"
    for (k = 1; k <= NR; k++) {
      colour = ""
      if (lines[k] ~ /^\$ /) colour = " fill=\"#8fd694\""
      else if (lines[k] ~ /^\+/) colour = " fill=\"#88c0d0\""
      else if (lines[k] ~ /^(-|@@)/) colour = " fill=\"#b48ead\""
      printf "<text x=\"18\" y=\"%d\" xml:space=\"preserve\"", 20 * k + 12
      printf "%s>%s</text>\n", colour, lines[k]
    }
    print "</g>"
    print "</svg>"
  }'
