#!/usr/bin/env bash
# Measures amend on a tmpfs, on a tree of Python files with headers: a call that changes none of
# them, half, or all; and one that compares the years of each. Beside them in the same run: an
# annotate of the same tree that changes each file, and one that changes none. Each call starts from
# the same tree, and the undo of each is compared with it. Prints the least of five rounds: seconds,
# those of the processor, and the peak memory.
# usage: bench/amend_speed.sh PROGRAM [FILES]      (20,000 files by default)
# The tags below are data: REUSE-IgnoreStart
set -euo pipefail
. "$(dirname "$0")/../tests/common.sh"
. "$(dirname "$0")/python_tree.sh"
files=${2:-20000}
none=(amend --replace-license Foo ISC -r .)
half=(amend --replace-license GPL-2.0 GPL-2.0-or-later -r .)
all=(amend --replace-holder "Jane Doe" "Jane Roe" -r .)
years=(amend --until 2000 -r .)
kept=(annotate -c "Jane Doe" -y 2024 -r .)
more=(annotate -c "Joe Bloggs" -y 2024 -r .)

# Runs a call on a copy of the tree, notes what it took if it was never faster, and takes it back.
declare -A best
measure() {
  local name=$1 changed=$2 start took
  shift 2
  rm -rf "$room/tree"
  cp -r "$room/plain" "$room/tree"
  start=${EPOCHREALTIME/./}
  /usr/bin/time -o "$room/time" -f '%U %S %M' "$program" --root "$room/tree" "$@" > "$room/out" ||
    fail "refused: $*"
  took=$((${EPOCHREALTIME/./} - start))
  (($(grep -c '^changed ' "$room/out" || true) == changed)) ||
    fail "$name changes $(wc -l < "$room/out") files"
  if [[ -z ${best[$name]:-} ]] || ((took < ${best[$name]%% *})); then
    best[$name]="$took $(< "$room/time")"
  fi
  ((changed == 0)) || "$program" --root "$room/tree" undo > "$room/out"
  diff -r -x .reuse "$room/plain" "$room/tree" > "$room/out" ||
    fail "the undo of $name doesn't give the tree back"
}

make_tree "$room/plain" "$files"
"$program" --root "$room/plain" annotate -c "Jane Doe" -y 2024 -l MIT -r . > "$room/out"
odd=()
for digit in 1 3 5 7 9; do odd+=(--exclude "**/file*$digit.py"); done
"$program" --root "$room/plain" amend --replace-license MIT GPL-2.0 -r . "${odd[@]}" > "$room/out"
rm -rf "$room/plain/.reuse"
halves=$(grep -rlF 'GPL-2.0' "$room/plain" | wc -l)
megabytes=$(du -sm --apparent-size "$room/plain" | cut -f1) load=$(cut -d' ' -f1 /proc/loadavg)
echo "$files files, $megabytes MB, of which $halves name GPL-2.0 (load $load):"
for _ in 1 2 3 4 5; do
  measure "amend, none changes" 0 "${none[@]}"
  measure "amend, half change" "$halves" "${half[@]}"
  measure "amend, all change" "$files" "${all[@]}"
  measure "amend, years compared" 0 "${years[@]}"
  measure "annotate, none changes" 0 "${kept[@]}"
  measure "annotate, all change" "$files" "${more[@]}"
done
for name in "amend, none changes" "amend, years compared" "annotate, none changes" \
  "amend, half change" "amend, all change" "annotate, all change"; do
  read -r took user system kilobytes <<< "${best[$name]}"
  awk -v name="$name" -v took="$took" -v user="$user" -v system_time="$system" \
    -v memory="$kilobytes" 'BEGIN {
      printf "  %-24s %6.2f s (processor %6.2f s) %6.0f MB\n",
        name, took / 1e6, user + system_time, memory / 1024
    }'
done
