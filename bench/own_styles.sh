#!/usr/bin/env bash
# Measures what a tree's own styles, comments and rules cost: annotate without syncs on a tmpfs, of a
# tree of Python files, of which each second has an interpreter line. All in one run, beside the same
# files without any of these: with all ready names and comments; with 20 rules as well that go before
# the program's names, of which none fits; and the same files under names that have no style, which
# the last two of 20 rules find, by the name or by the first line. Beside them the floor, a C program
# that reads each file once, writes it aside with a header, and renames it, and the time in which the
# kit's SHA-256 hashes each file twice. Prints the least of five rounds: seconds, those of the
# processor, the multiple of floor and hashing together, and the peak memory.
# A program that doesn't know rules is measured without.
# usage: bench/own_styles.sh PROGRAM [FILES [ROUNDS]]      (20,000 files, five rounds)
# The tags below are data: REUSE-IgnoreStart
set -euo pipefail
. "$(dirname "$0")/../tests/common.sh"
. "$(dirname "$0")/python_tree.sh"
top=$(realpath "$(dirname "$0")/..")
files=${2:-20000}
times=${3:-5}
header=$'# SPDX-FileCopyrightText: 2024 Jane Doe\n#\n# SPDX-License-Identifier: MIT\n\n'
. "$top/bench/floor.sh"

# Gives a tree all ready names and comments, without rules.
add_tables() {
  mkdir -p "$1/.reuse"
  cp "$top/share/styles.toml" "$1/.reuse/"
  sed '/^\[\[rules\]\]/,$d' "$top/share/comments.toml" > "$1/.reuse/comments.toml"
}

# The table of a rule that goes before the program's names: a key with its glob
rule() { printf '[[rules]]\n%s = "%s"\nstyle = "python"\nover-table = true\n' "$1" "$2"; }

# So many rules of which none fits, half by names and half by first lines
other_rules() {
  local k
  for ((k = 1; k <= $1; k++)); do
    if ((k % 2)); then rule name "*file*.p*y$k"; else rule first-line "#!*/tool$k *"; fi
  done
}

# Whether the program knows rules
knows_rules() {
  mkdir -p "$room/probe/.reuse"
  echo x > "$room/probe/a.py"
  { echo 'version = 1'; other_rules 1; } > "$room/probe/.reuse/comments.toml"
  "$program" --root "$room/probe" annotate -l MIT --dry-run a.py > "$room/out" 2>&1
}

# The same files under names that only rules find: each second by its name, the others by the first
# line
rename_files() {
  local path
  find "$1" -name '*.py' | while IFS= read -r path; do
    if [[ $(head -c 2 "$path") == '#!' ]]; then mv "$path" "${path%.py}"; else mv "$path" "${path%.py}.part.1"; fi
  done
}

# measure NAME TREE COMMAND..: runs a command on a copy of a tree, and notes what it took.
measure() {
  local name=$1 start took
  rm -rf "$room/tree"
  cp -r "$2" "$room/tree"
  shift 2
  sleep 0.1
  start=${EPOCHREALTIME/./}
  /usr/bin/time -o "$room/time" -f '%U %S %M' "$@" > "$room/out" || fail "refused: $*"
  took=$((${EPOCHREALTIME/./} - start))
  note "$name" "$((took / 1000000)).$(printf %06d $((took % 1000000))) $(cat "$room/time")"
}

annotate() {
  measure "$1" "$2" "$program" --root "$room/tree" --no-sync annotate -c "Jane Doe" -l MIT -y 2024 -r .
  (($(wc -l < "$room/out") == files)) || fail "$1: $(wc -l < "$room/out") files are changed"
}

report() {
  local seconds user system kilobytes
  read -r seconds user system kilobytes <<< "${best[$1]}"
  awk -v name="$1" -v time="$seconds" -v busy="$user" -v system_busy="$system" -v least="$least" \
    -v memory="$kilobytes" 'BEGIN {
    printf "  %-40s %6.2f s (processor %6.2f s) %5.2f of the least %5.0f MB\n", name, time,
      busy + system_busy, time / least, memory / 1024
  }'
}

make_tree "$room/plain" "$files"
find "$room/plain" -name '*[02468].py' -exec sed -i '1i #!/usr/bin/env python3' {} +
add_tables "$room/tables"
cp -r "$room/plain/." "$room/tables/"
calls=(plain tables)
declare -A told=([plain]='neither file' [tables]='ready names and comments')
if knows_rules; then
  calls+=(rules found)
  told[rules]='and 20 rules, none of which fits'
  told[found]='and 20 rules, the last two find all'
  cp -r "$room/tables" "$room/rules"
  cp -r "$room/tables" "$room/found"
  other_rules 20 >> "$room/rules/.reuse/comments.toml"
  { other_rules 18; rule name '*.part.*'; rule first-line '#!*python*'; } \
    >> "$room/found/.reuse/comments.toml"
  rename_files "$room/found"
else
  echo 'this program knows no rules'
fi

echo "annotate of $files files, $(du -sm --apparent-size "$room/plain" | cut -f1) MB, the least of" \
  "$times (load $(cut -d' ' -f1 /proc/loadavg)):"
for ((round = 0; round < times; round++)); do
  hashing "$room/plain"
  measure floor "$room/plain" "$room/floor" "$room/tree" "$header"
  for call in "${calls[@]}"; do annotate "${told[$call]}" "$room/$call"; done
done
floor=${best[floor]%% *} hash=${best[hashing]%% *}
least=$(awk -v floor="$floor" -v hash="$hash" 'BEGIN { print floor + hash }')
echo "  the least: floor $floor s and hashing each file twice $hash s"
for call in "${calls[@]}"; do report "${told[$call]}"; done
