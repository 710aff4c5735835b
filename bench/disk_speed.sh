#!/usr/bin/env bash
# Lists, reads and rewrites a tree of files through DiskStore, beside `cp -r` of the same tree, on a
# tmpfs. Prints the least time of five rounds and the ratios to `cp -r`. The program is built in a
# temporary folder, over the crates up to that of the folder. Where this machine has kept the proofs
# of these, only the program is proved.
# usage: bench/disk_speed.sh [FILES]
set -euo pipefail

files=${1:-20000}
build=$(mktemp -d)
tree=$(mktemp -d /dev/shm/disk_speed.XXXXXX)
trap 'rm -rf "$build" "$tree"' EXIT
. "$(dirname "$0")/build.sh" disk_speed reuse_record reuse_text reuse_change reuse_store \
  reuse_system reuse_lock reuse_disk reuse_folder

. "$top/bench/python_tree.sh"
make_tree "$tree/in" "$files"

declare -A least
measure() {
  local name=$1 start end
  shift
  start=${EPOCHREALTIME/./}
  "$@" > /dev/null
  end=${EPOCHREALTIME/./}
  if [[ -z ${least[$name]:-} || $((end - start)) -lt ${least[$name]} ]]; then
    least[$name]=$((end - start))
  fi
}
for round in {1..5}; do
  rm -rf "$tree/out"
  measure cp cp -r "$tree/in" "$tree/out"
  for what in list read rewrite; do measure $what "$program" $what "$tree/in"; done
done

echo "$files files, $(du -sm --apparent-size "$tree/in" | cut -f1) MB"
for name in cp list read rewrite; do
  awk -v name=$name -v time="${least[$name]}" -v copy="${least[cp]}" \
    'BEGIN { printf "%-8s %.3f s  %.2f of cp -r\n", name, time / 1e6, time / copy }'
done
