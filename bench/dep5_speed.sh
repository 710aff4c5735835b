#!/usr/bin/env bash
# Converts dep5 files of 8 and 16 MiB: many Files paragraphs, one pattern of asterisks, one
# paragraph of many fields, and blank lines alone. Prints seconds and the ratio of the two, which is
# near 2 where the work is linear.
# usage: bench/dep5_speed.sh
set -euo pipefail
. "$(dirname "$0")/build.sh" dep5_speed reuse_text reuse_notice reuse_amend reuse_toml reuse_dep5

# fill SIZE LINE: the line, with {} numbered, as often as it fits
fill() { python3 -c 'import sys
size, line = int(sys.argv[1]), sys.argv[2].replace("\\n", "\n")
out, number = [], 0
while size > 0:
    out.append(line.replace("{}", str(number)))
    size -= len(out[-1])
    number += 1
sys.stdout.write("".join(out))' "$1" "$2"; }

head="Format: x\n"
files="\nFiles: *\nCopyright: J\nLicense: MIT\n"
for size in 8000000 16000000; do
  { printf "$head"; fill $size '\nFiles: src/{}/*\nCopyright: 2019 Jane Doe\nLicense: MIT\n'; } \
    > "$build/paragraphs.$size"
  { printf "$head"'\nFiles: '; fill $size '*'; printf '\nCopyright: J\nLicense: MIT\n'; } \
    > "$build/asterisks.$size"
  { printf "$head"; fill $size 'Field-{}: x\n'; printf "$files"; } > "$build/fields.$size"
  { printf "$head"; fill $size '\n'; printf "$files"; } > "$build/blank_lines.$size"
done
for kind in paragraphs asterisks fields blank_lines; do
  "$program" "$build/$kind.8000000" "$build/$kind.16000000" |
    awk -v kind=$kind '
      { time[NR] = $2; answer = $3 " " $4 }
      END {
        ratio = time[1] > 0 ? time[2] / time[1] : 0
        printf "%-12s %s s, %s s: ratio %.2f, %s\n", kind, time[1], time[2], ratio, answer
      }'
done
