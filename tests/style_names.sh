#!/usr/bin/env bash
# Compares the names that Debian's reuse knows with those that the program knows and those of
# share/styles.toml and share/comments.toml, name by name: both tools annotate a file of each name,
# and write the same first line, or both a neighbour. Names that differ, and names that the program
# refuses, are listed here with the reason, and the list is compared too. Prints the names that are
# left, with why. Ends with status 1 at the first fault.
# usage: tests/style_names.sh PROGRAM
set -euo pipefail
# The tags below are data: REUSE-IgnoreStart
. "$(dirname "$0")/common.sh"
wants reuse reuse
top=$(realpath "$(dirname "$0")/..")
theirs=$room/theirs
ours=$room/ours
export XDG_CACHE_HOME=$room LC_ALL=C.UTF-8

# The names that are left: reuse's word for their comment, why, and the names
left() {
  cat << LEFT
bibtex|an address in the header holds an @, behind which BibTeX reads an entry|.bib
applescript|such a file is compiled, and its text has another name|.scpt .scptd
neighbour|such a file is the neighbour of another|.license
LEFT
}

# The names that the tools annotate in different ways: what the first line begins with that reuse
# writes, and what that of the program. An x is the file's own: reuse doesn't recognise such a file,
# since it looks for what stands from the last dot on, which is .cfg. A .php that doesn't begin with
# PHP gets a neighbour, since PHP would print the comment.
different() {
  cat << DIFFERENT
;|;;|.el .lisp .scm .clj .cljc .cljs .rkt .lsp
;|//|.cl
;|/*|.l
/*|//|.less .sass .scss
#|//|.scala
x|#|.nim.cfg
c|!|.f .f03 .f90 .f95 .for
//|neighbour|.php
DIFFERENT
}

# The names of these lists, one a line
names_of() { "$1" | cut -d '|' -f 3 | tr ' ' '\n'; }

# The names that reuse knows: each with its word for the comment, and whether it is a whole name
known_by_reuse() {
  "$(sed -n '1s/^#! *//p' "$(command -v reuse)")" - << PYTHON
try:
    from reuse import comment
except ImportError:
    from reuse import _comment as comment
def word(name, style):
    given = getattr(style, "SHORTHAND", "") or getattr(style, "_shorthand", "")
    return given or ("neighbour" if name == ".license" else "none")
for name, style in sorted(comment.EXTENSION_COMMENT_STYLE_MAP.items()):
    print(name, word(name, style), f"x{name}")
for name, style in sorted(comment.FILENAME_COMMENT_STYLE_MAP.items()):
    print(name, word(name, style), name)
PYTHON
}

# What a tool wrote for a file: the first word of its first line, or that it wrote a neighbour
written() {
  if [[ -e $1.license ]]; then
    echo neighbour
  else
    head -n 1 "$1" | cut -d ' ' -f 1
  fi
}

# A file of each name, in a folder of its own
known_by_reuse > "$room/names"
(($(wc -l < "$room/names") >= 240)) || fail 'reuse knows fewer names than it did'
mkdir -p "$theirs" "$ours/.reuse"
git -C "$theirs" init -q
cp "$top/share/styles.toml" "$top/share/comments.toml" "$ours/.reuse/"
number=0
while read -r name word file; do
  number=$((number + 1))
  mkdir "$theirs/f$number" "$ours/f$number"
  echo x | tee "$theirs/f$number/$file" > "$ours/f$number/$file"
  echo "$name $word f$number/$file" >> "$room/paths"
done < "$room/names"

# What the program refuses are just the names that are left.
"$program" --root "$ours" annotate -l MIT -r --dry-run . > "$room/out" 2> "$room/refused" || true
while read -r name word path; do
  if [[ $word == neighbour ]] || grep -qxF "reuse-undo: $path: unrecognised" "$room/refused"; then
    echo "$name" >> "$room/unrecognised"
    rm "$ours/$path" "$theirs/$path"
  else
    echo "$name $path" >> "$room/both"
  fi
done < "$room/paths"
names_of left | sort > "$room/left"
sort "$room/unrecognised" | diff "$room/left" - > "$room/diff" \
  || fail "names that are left: $(cat "$room/diff")"
while IFS='|' read -r word why names; do
  for name in $names; do
    grep -qF -- "$name $word " "$room/names" || fail "$name has not reuse's comment $word"
  done
  echo "left, since $why: $names"
done < <(left)

# The others both annotate, and but for those that differ in the same way.
add=(annotate -c 'Jane Doe' -y 2024 -l MIT)
"$program" --root "$ours" "${add[@]}" -r . > "$room/out" || fail 'the program refuses a name'
mapfile -t paths < <(cut -d ' ' -f 2 "$room/both")
(cd "$theirs" && reuse "${add[@]}" --skip-unrecognised "${paths[@]}") > "$room/out" 2>&1 \
  || fail "reuse: $(cat "$room/out")"
while read -r name path; do
  reuse_wrote=$(written "$theirs/$path")
  we_wrote=$(written "$ours/$path")
  [[ $reuse_wrote == "$we_wrote" ]] || echo "$reuse_wrote|$we_wrote|$name"
done < "$room/both" | sort > "$room/differ"
while IFS='|' read -r reuse_wrote we_wrote names; do
  for name in $names; do echo "$reuse_wrote|$we_wrote|$name"; done
done < <(different) | sort | diff - "$room/differ" > "$room/diff" \
  || fail "names that differ: $(cat "$room/diff")"
same=$(($(wc -l < "$room/both") - $(wc -l < "$room/differ")))
echo "of $(wc -l < "$room/names") names of reuse $same get the same comment or a neighbour," \
  "$(wc -l < "$room/differ") another comment, and $(wc -l < "$room/left") are left"
