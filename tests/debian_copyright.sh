#!/usr/bin/env bash
# Converts the machine-readable copyright files of a Debian system, which are dep5 files, each in a
# tree of its own, and takes each conversion back. Says how many convert and why the others are
# refused; ends with status 1 where a conversion isn't taken back byte for byte.
# usage: tests/debian_copyright.sh PROGRAM [FOLDER]      (FOLDER is /usr/share/doc by default)
set -euo pipefail
. "$(dirname "$0")/common.sh"
folder=${2:-/usr/share/doc}
tree=$room/tree
mkdir "$tree"

while IFS= read -r file; do
  rm -rf "$tree/.reuse" "$tree/REUSE.toml"
  mkdir "$tree/.reuse"
  cp -L "$file" "$tree/.reuse/dep5"
  if "$program" --root "$tree" convert-dep5 > "$room/out" 2> "$room/error"; then
    echo converted
    "$program" --root "$tree" undo > "$room/out" || fail "$file: the conversion is not taken back"
    cmp -s "$file" "$tree/.reuse/dep5" || fail "$file is not as before"
  else
    cut -d: -f2- "$room/error" | sed 's#:[0-9]*: #: #'
  fi
done < <(grep -lsE '^Format: .*copyright-format/1\.0/?' "$folder"/*/copyright) > "$room/answers"
sort "$room/answers" | uniq -c | sort -rn
echo "$(wc -l < "$room/answers") files, $(grep -cx converted "$room/answers") of them converted" \
  "and taken back"
