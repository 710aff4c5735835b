#!/usr/bin/env bash
# Measures annotate, undo and redo on ext4, in a file that is mounted as a disk, beside the floor:
# the same tree each time, written to the disk before the first call. Undo and redo follow at once,
# and then once more with all written to the disk before. Prints seconds, of two rounds. It needs
# root.
# usage: bench/ext4_speed.sh PROGRAM [FILES]      (20,000 files by default)
set -euo pipefail
. "$(dirname "$0")/../tests/common.sh"
. "$(dirname "$0")/python_tree.sh"
wants mkfs.ext4 e2fsprogs
# The tags below are data: REUSE-IgnoreStart
header=$'# SPDX-FileCopyrightText: 2024 Jane Doe\n#\n# SPDX-License-Identifier: MIT\n\n'
# REUSE-IgnoreEnd
disk=$(mktemp /var/tmp/ext4_speed.XXXXXX)
trap 'umount "$room/disk" 2> /dev/null; rm -rf "$room" "$disk"' EXIT
cc -O2 -o "$room/floor" "$(dirname "$0")/floor.c"
truncate -s 4G "$disk"
mkfs.ext4 -q "$disk"
mkdir "$room/disk"
mount -o loop "$disk" "$room/disk"
tree=$room/disk/tree

# Prints the seconds of a call.
seconds() {
  local name=$1 start=${EPOCHREALTIME/./}
  shift
  "$@" > "$room/out"
  awk -v name="$name" -v took=$((${EPOCHREALTIME/./} - start)) \
    'BEGIN { printf "  %-22s %5.2f s\n", name, took / 1e6 }'
}
undo_tool() { "$program" --root "$tree" "$@"; }

make_tree "$room/disk/plain" "${2:-20000}"
for round in 1 2; do
  echo "round $round:"
  cp -r "$room/disk/plain" "$tree" && sync
  seconds floor "$room/floor" "$tree" "$header"
  rm -rf "$tree" && cp -r "$room/disk/plain" "$tree" && sync
  seconds annotate undo_tool annotate -c "Jane Doe" -l MIT -y 2024 -r .
  seconds "undo at once" undo_tool undo
  seconds "redo at once" undo_tool redo
  sync
  seconds "undo of what is written" undo_tool undo
  sync
  seconds "redo of what is written" undo_tool redo
  rm -rf "$tree" && sync
done
