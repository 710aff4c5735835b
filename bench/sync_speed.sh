#!/usr/bin/env bash
# Measures what it costs that a loss of power takes no file: annotate, undo and redo of 1, 2,000 and
# 20,000 Python files on a tmpfs, on ext4 and on XFS in files that are mounted as disks, and on the
# disk itself. Beside them in the same run stand the calls with --no-sync, those of an earlier
# program, `cp -r` of the tree, and the floor: a C program that rewrites the files in batches and
# syncs them, that syncs each in turn, or that syncs none. Before each call all is written to the
# disk. Prints a table of one line a measure: the least seconds of the rounds, and the ratio to the
# floor in batches. Before that it prints how many syncs the calls make on one file, and the load.
# Other work on the disk makes syncs many times slower. It needs root.
# The variables: DISK, a folder on the disk (/var/tmp by default), which holds the mounted files
# too; SIZES, the numbers of files; ROUNDS, three by default. The floor of each in turn has one.
# usage: bench/sync_speed.sh PROGRAM [PROGRAM_BEFORE]
set -euo pipefail
. "$(dirname "$0")/../tests/common.sh"
. "$(dirname "$0")/python_tree.sh"
wants mkfs.ext4 e2fsprogs
wants mkfs.xfs xfsprogs
wants strace strace
before=${2:+$(realpath "$2")}
read -ra sizes <<< "${SIZES:-1 2000 20000}"
rounds=${ROUNDS:-3}
disk=$(mktemp -d "${DISK:-/var/tmp}/sync_speed.XXXXXX")
mounts=()
end() {
  local mount
  for mount in "${mounts[@]}"; do umount "$mount" || :; done
  rm -rf "$room" "$disk"
}
trap end EXIT
# The tags below are data: REUSE-IgnoreStart
header=$'# SPDX-FileCopyrightText: 2024 Jane Doe\n#\n# SPDX-License-Identifier: MIT\n\n'
# REUSE-IgnoreEnd
annotate=(annotate -c "Jane Doe" -l MIT -y 2024 -r .)
cc -O2 -o "$room/sync_floor" "$(dirname "$0")/sync_floor.c"

# The programs that are measured: a name in the table, the program, and an option
kinds=("|$program|")
! "$program" annotate --help | grep -q -- --no-sync || kinds+=(" --no-sync|$program|--no-sync")
[[ -z $before ]] || kinds+=(" before|$before|")

# Makes a call of a kind on the tree.
make_call() {
  local with=$1 option=$2
  shift 2
  "$with" --root "$tree" "$1" ${option:+"$option"} "${@:2}" > "$room/out"
}

# Lays the tree anew, with all on the disk.
lay() {
  rm -rf "$tree"
  cp -r "$plain" "$tree"
  sync -f "$place"
}

# Notes the seconds of a command if it was never faster.
declare -A best
measure() {
  local name=$1 start took
  shift
  sync -f "$place"
  start=${EPOCHREALTIME/./}
  "$@" || { echo "refused: $*" >&2; exit 1; }
  took=$((${EPOCHREALTIME/./} - start))
  if [[ -z ${best[$name]:-} ]]; then
    names+=("$name")
    best[$name]=$took
  elif ((took < best[$name])); then
    best[$name]=$took
  fi
}

# Measures all on one place with one tree.
one_round() {
  local mode kind name with option
  rm -rf "$tree"
  measure 'cp -r' cp -r "$plain" "$tree"
  for mode in none batch each; do
    [[ $mode != each || -z ${best[floor each]:-} ]] || continue
    lay
    measure "floor $mode" "$room/sync_floor" "$mode" "$tree" "$header"
  done
  for kind in "${kinds[@]}"; do
    IFS='|' read -r name with option <<< "$kind"
    lay
    measure "annotate$name" make_call "$with" "$option" "${annotate[@]}"
    measure "undo$name" make_call "$with" "$option" undo
    measure "redo$name" make_call "$with" "$option" redo
  done
  rm -rf "$tree"
}

# Mounts a file of the disk as a file system.
mount_file() {
  truncate -s 4G "$disk/$1.disk"
  "mkfs.$1" -q "$disk/$1.disk"
  mkdir "$room/$1"
  mount -o loop "$disk/$1.disk" "$room/$1"
  mounts+=("$room/$1")
}

# How many syncs the calls on one file make
plain=$room/1
make_tree "$plain" 1
for kind in "${kinds[@]}"; do
  IFS='|' read -r name with option <<< "$kind"
  tree=$room/traced
  cp -r "$plain" "$tree"
  for call in annotate undo redo; do
    words=("$call")
    [[ $call != annotate ]] || words=("${annotate[@]}")
    strace -f -qq -o "$room/trace" -e trace=fsync,fdatasync,sync,syncfs,sync_file_range \
      "$with" --root "$tree" "$call" ${option:+"$option"} "${words[@]:1}" > "$room/out"
    echo "$call$name of one file: $(wc -l < "$room/trace") syncs"
  done
  rm -rf "$tree"
done

echo "load $(cut -d' ' -f1-3 /proc/loadavg)"
mkdir "$room/tmpfs"
places=("tmpfs $room/tmpfs" "ext4 $room/ext4")
mount_file ext4
if grep -qw xfs /proc/filesystems || modprobe xfs 2> "$room/out"; then
  mount_file xfs
  places+=("xfs $room/xfs")
else
  echo 'XFS is not measured, which this kernel does not know'
fi
places+=("disk $disk")
for files in "${sizes[@]}"; do
  plain=$room/$files
  [[ -d $plain ]] || make_tree "$plain" "$files"
  for line in "${places[@]}"; do
    read -r name place <<< "$line"
    tree=$place/tree
    best=() names=()
    for ((round = 0; round < rounds; round++)); do one_round; done
    for measure in "${names[@]}"; do
      awk -v place="$name" -v files="$files" -v what="$measure" -v took="${best[$measure]}" \
        -v floor="${best[floor batch]}" 'BEGIN {
          printf "%-6s %6d  %-20s %9.4f s", place, files, what, took / 1e6
          printf " %7.2f of the floor\n", took / floor }'
    done
  done
  rm -rf "$plain"
done
