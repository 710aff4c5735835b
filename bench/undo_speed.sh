#!/usr/bin/env bash
# Measures annotate, undo and redo without syncs on a tmpfs, on three trees: 20,000 Python files of
# some 3 kB, as many of some 16 kB, and 100,000 of some bytes. Beside them in the same run: `cp -r`
# of the same tree; the floor, a C program that reads each file once, writes it aside with a header,
# and renames it; and the time in which the kit's SHA-256 hashes each file of the tree twice, right
# after it was read, as the seals of a step ask for. Each call begins a tenth of a second after the
# files were written: those that were changed right before a call are read twice. Then histories: a
# log of 500 MB in 61 entries, and of 1,000 entries; one file of the 100,000; and help. Prints the
# least of nine rounds on the first tree and of five on the others, each with all that is compared:
# seconds, those of the processor, the ratio to `cp -r` and to the floor with the hashing (without,
# for a journal of version 1.0, which has no seals), and the peak memory.
# usage: bench/undo_speed.sh PROGRAM [FILES [OTHER]]
#   FILES  how many files the first two trees have: 20,000 by default
#   OTHER  another program, such as that of a version before. It makes the calls on the three trees,
#          too: each round has those of PROGRAM and then those of OTHER.
set -euo pipefail
. "$(dirname "$0")/../tests/common.sh"
. "$(dirname "$0")/python_tree.sh"
files=${2:-20000}
other=${3:+$(realpath "$3")}
annotate=(--no-sync annotate -c "Jane Doe" -l MIT -y 2024 -r .)
# The tags below are data: REUSE-IgnoreStart
header=$'# SPDX-FileCopyrightText: 2024 Jane Doe\n#\n# SPDX-License-Identifier: MIT\n\n'
# REUSE-IgnoreEnd
. "$(dirname "$0")/floor.sh"

# Runs a command, and notes what it took.
measure() {
  local name=$1 start took
  shift
  start=${EPOCHREALTIME/./}
  /usr/bin/time -o "$room/time" -f '%U %S %M' "$@" > "$room/out" ||
    { echo "refused: $*" >&2; exit 1; }
  took=$((${EPOCHREALTIME/./} - start))
  note "$name" "$((took / 1000000)).$(printf %06d $((took % 1000000))) $(cat "$room/time")"
}

# report LEAST NAME..: prints what was noted of these commands, beside `cp -r` and what the floor
# takes, perhaps with the hashing, in seconds.
report() {
  local least=$1 name seconds user system kilobytes
  shift
  for name in "$@"; do
    read -r seconds user system kilobytes <<< "${best[$name]}"
    awk -v name="$name" -v time="$seconds" -v busy="$user" -v system_busy="$system" \
      -v copy="${best[cp -r]:-0}" -v least="$least" -v memory="$kilobytes" 'BEGIN {
      printf "  %-20s %6.2f s (processor %6.2f s) %6.0f MB",
        name, time, busy + system_busy, memory / 1024
      if (copy > 0) printf "  %5.2f of cp -r", time / copy
      if (least > 0) printf "  %5.2f of the least, %.2f s", time / least, least
      print ""
    }'
  done
}

# calls_on TREE PROGRAM [ENDING]: copies a tree, annotates the copy, and takes it back and forth.
# What is noted has names with this ending.
calls_on() {
  local program=$2
  rm -rf "$room/tree"
  cp -r "$1" "$room/tree"
  sleep 0.1
  measure "annotate${3:-}" "$program" --root "$room/tree" "${annotate[@]}"
  sleep 0.1
  measure "undo${3:-}" "$program" --root "$room/tree" --no-sync undo
  diff -r -x .reuse "$1" "$room/tree" || { echo "undo doesn't give the tree back" >&2; exit 1; }
  measure "redo${3:-}" "$program" --root "$room/tree" --no-sync redo
  measure "log${3:-}" "$program" --root "$room/tree" log
  as_format_1 "$room/tree"
  measure "undo without seals${3:-}" "$program" --root "$room/tree" --no-sync undo
}

# Works on a tree once, with all that is compared.
work_on() {
  hashing "$1"
  rm -rf "$room/tree"
  measure "cp -r" cp -r "$1" "$room/tree"
  measure floor "$room/floor" "$room/tree" "$header"
  calls_on "$1" "$program"
  [[ -z $other ]] || calls_on "$1" "$other" ', other'
}

# Works on a tree so many times, and prints the times.
times_on() {
  local hash floor least ending k
  best=()
  echo "$2, $(du -sm --apparent-size "$1" | cut -f1) MB (load $(cut -d' ' -f1 /proc/loadavg)):"
  for ((k = 0; k < $3; k++)); do work_on "$1"; done
  hash=${best[hashing]%% *}
  floor=${best[floor]%% *}
  report 0 "cp -r" floor
  echo "  hashing each file twice: $hash s"
  least=$(awk -v floor="$floor" -v hash="$hash" 'BEGIN { print floor + hash }')
  for ending in '' ${other:+', other'}; do
    report "$least" "annotate$ending" "undo$ending" "redo$ending"
    report "$floor" "undo without seals$ending"
    report 0 "log$ending"
  done
}

# Lists one entry so many times, each with a copy of it.
list_often() {
  local journal=$room/$1/.reuse/undo k
  for ((k = 2; k <= $2; k++)); do
    cp "$journal/000001.json" "$journal/$(printf %06d "$k").json"
  done
  printf '{"done":[%s],"format":2,"next":%d,"pending":null,"undone":[]}' "$(seq -s, "$2")" \
    $(($2 + 1)) > "$journal/head.json"
  best=()
  echo "a log of $2 entries of $3 files, $(du -sm --apparent-size "$journal" | cut -f1) MB:"
  for _ in 1 2 3; do measure log "$program" --root "$room/$1" log; done
  report 0 log
  (($(wc -l < "$room/out") == $2)) || { echo "the log has not $2 lines" >&2; exit 1; }
}

# The milliseconds of a call, the mean of twenty
milliseconds() {
  local start=${EPOCHREALTIME/./} _
  for _ in {1..20}; do "$@" > "$room/out"; done
  awk -v took=$((${EPOCHREALTIME/./} - start)) 'BEGIN { printf "%.1f", took / 20000 }'
}

make_tree "$room/plain" "$files"
times_on "$room/plain" "$files files" 9
rm -rf "$room/plain"

make_tree "$room/plain" "$files" 88
times_on "$room/plain" "$files files" 5
rm -rf "$room/plain"

for folder in {1..100}; do
  mkdir -p "$room/wide/folder$folder"
  (cd "$room/wide/folder$folder" && seq 1000 | split -l 1 -a 3 --additional-suffix=.py)
done
times_on "$room/wide" "100,000 files" 5
rm -rf "$room/tree"
holders=0
annotate_one() {
  "$program" --root "$room/wide" annotate -c "Holder $((++holders))" -l MIT -y 2024 folder50/xaab.py
}
echo "one file of 100,000: $(milliseconds annotate_one) ms"
rm -rf "$room/wide"

make_tree "$room/large" 22000
"$program" --root "$room/large" "${annotate[@]}" > "$room/out"
list_often large 61 22000
rm -rf "$room/large"
make_tree "$room/long" 100
"$program" --root "$room/long" "${annotate[@]}" > "$room/out"
list_often long 1000 100
rm -rf "$room/long"
echo "help: $(milliseconds "$program" --help) ms; help of annotate:" \
  "$(milliseconds "$program" annotate --help) ms"
