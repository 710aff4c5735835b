#!/usr/bin/env bash
# Lists the modules of each crate, the tests of calls and of sessions, and the scripts of tests/ and
# bench/, each with the first sentence of what its head says, as a page in Markdown. A module
# without a head is a fault.
# usage: docs/list_of_modules.sh
set -euo pipefail
cd "$(dirname "$0")/.."
cat << 'HEAD'
# Modules and tests

Each with the first sentence of its head. The head says more: what calls it, and what tests it.
HEAD

# The first sentence of the lines that begin so: `//!` of a module, `#` of a script behind its first
# line. $1: what is printed in front, $2: the file, $3: how the lines begin
entry() {
  local text
  text=$(awk -v lead="$3" '
    NR == 1 && /^#!/ { next }
    index($0, lead) != 1 || /^# usage/ { exit }
    { print substr($0, length(lead) + 2) }' "$2" | tr '\n' ' ' |
    sed -E 's/[.] [A-Z`].*/./; s/ +$//')
  if [[ -z $text ]]; then
    echo "$2 has no head" >&2
    exit 1
  fi
  echo "- \`$1\`: $text" | fold -s -w 98 | sed -E 's/ $//; 2,$s/^/  /'
}

while read -r crate; do
  printf '\n## %s\n\n' "$crate"
  find "crates/$crate/src" -name '*.rt' | LC_ALL=C sort | while IFS= read -r file; do
    name=${file#crates/*/src/}
    name=${name%.rt}
    entry "${name//\//::}" "$file" '//!'
  done
done < <(sed -n 's/^\([a-z0-9_]*\):.*/\1/p' crates.txt)
for folder in tests/calls tests/sessions; do
  printf '\n## %s\n\n' "$folder"
  for file in "$folder"/*.txt; do entry "$(basename "$file" .txt)" "$file" '//!'; done
done
for folder in tests bench; do
  printf '\n## The scripts of %s\n\n' "$folder"
  for file in "$folder"/*.sh; do entry "$(basename "$file")" "$file" '#'; done
done
