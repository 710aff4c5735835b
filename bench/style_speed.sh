#!/usr/bin/env bash
# Measures what a tree's own styles cost: annotate of a tree of Python files on a tmpfs, without
# styles and with tables of some hundred names. Prints seconds and peak memory, the least of three.
# usage: bench/style_speed.sh PROGRAM [FILES]      (20,000 files by default)
set -euo pipefail
. "$(dirname "$0")/../tests/common.sh"
. "$(dirname "$0")/python_tree.sh"
files=${2:-20000}

# A table of so many names, of which none is that of a file
make_styles() {
  mkdir -p "$room/plain/.reuse"
  { printf 'version = 1\n[styles]\n'; for ((k = 0; k < $1; k++)); do printf \
    '".ending%d" = "python"\n' "$k"; done; } > "$room/plain/.reuse/styles.toml"
}

annotate() {
  local took best=
  for _ in 1 2 3; do
    rm -rf "$room/tree"
    cp -r "$room/plain" "$room/tree"
    /usr/bin/time -o "$room/time" -f '%e %U %S %M' "$program" --root "$room/tree" annotate \
      -c "Jane Doe" -l MIT -y 2024 -r . > "$room/out"
    took=$(cat "$room/time")
    if [[ -z $best ]] ||
      awk -v one="${took%% *}" -v other="${best%% *}" 'BEGIN { exit !(one < other) }'; then
      best=$took
    fi
  done
  [[ $(wc -l < "$room/out") == "$files" ]] || fail "$(wc -l < "$room/out") files are changed"
  read -r seconds user system kilobytes <<< "$best"
  printf '  %-16s %6.2f s (processor %6.2f s)  %5d MB\n' "$1" "$seconds" \
    "$(bc <<< "$user + $system")" $((kilobytes / 1024))
}

make_tree "$room/plain" "$files"
echo "annotate of $files files, the least of three (load $(cut -d' ' -f1 /proc/loadavg)):"
annotate 'no styles'
for names in 300 3000; do
  make_styles "$names"
  annotate "$names names"
done
