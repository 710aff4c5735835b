#!/usr/bin/env bash
# Takes the power away from runs of the program at random moments, and right after them: on ext4,
# on ext4 with noauto_da_alloc, and on XFS, in files that are mounted as disks, by the call that
# shuts a file system down without its log. Another program syncs beside each run. The disk is then
# mounted again, and its log replayed. Each file must be as before the call or as after it. The
# journal must open, the tree and the log must be those of before or after, and of after where the
# call had ended well. Undo of all steps must give the first tree. The calls are annotate, a second
# one, undo, redo, revert, download and convert-dep5, and openings after a kill. Prints a line for
# each, and ends with status 1 if there was a fault, and with 77, which is no pass, if disks can't
# be mounted.
# usage: tests/power_loss.sh PROGRAM [ROUNDS]
# ROUNDS is how often each call loses power on each disk, 40 by default; a full run has 60.
# The tags below are data: REUSE-IgnoreStart
set -euo pipefail
# The disks are mounted for this script alone: a process that took them along into mounts of its own
# would keep them from being mounted anew.
if [[ -z ${own_mounts:-} ]]; then
  ((EUID == 0)) || { echo 'not tried: it mounts disks, and wants root'; exit 77; }
  own_mounts=yes exec unshare --mount "$0" "$@"
fi
. "$(dirname "$0")/common.sh"
wants python3 python3
wants mkfs.ext4 e2fsprogs
wants mkfs.xfs xfsprogs
rounds=${2:-40}
crash=$(realpath "$(dirname "$0")")/power_loss/crash.py
devices=() disks=() names=() pids=()

# Says why not all was tried.
stop() {
  echo "not tried: $1"
  exit 77
}

# Ends what runs still, and takes the disks away.
end() {
  local pid disk device
  for pid in "${pids[@]}"; do kill "$pid" 2> /dev/null || :; done
  wait
  for disk in "${disks[@]}"; do
    umount "$disk" 2> /dev/null || umount -l "$disk" 2> /dev/null || :
  done
  for device in "${devices[@]}"; do losetup -d "$device" || :; done
  rm -f "$room"/*.disk
}
trap 'end; rm -rf "$room"' EXIT
trap 'exit 1' INT TERM

# Mounts a file as a disk: its name, its size, how it is made, and how it is mounted.
mount_disk() {
  local name=$1 disk=$room/$1 device
  mkdir "$disk"
  truncate -s "$2" "$disk.disk"
  $3 "$disk.disk"
  device=$(losetup --find --show "$disk.disk") || stop 'there are no loop devices'
  devices+=("$device")
  mount -o "$4" "$device" "$disk" || stop "$name can't be mounted"
  disks+=("$disk")
  names+=("$name:$4")
}

# Makes the tree of 120 files: python, c, pictures and others; some with a first line that stays in
# front, an old header block, or a neighbour; two are longer than any buffer of 32 KiB.
make_tree() {
  local k first old
  mkdir -p "$1/p" "$1/c" "$1/art/deep" "$1/web"
  for k in {1..40}; do
    first= old=
    ((k % 3)) || first='#!/usr/bin/env python3\n'
    ((k % 2)) || old='# SPDX-FileCopyrightText: 2001 Old Holder\n\n'
    { printf %b "$first$old" && seq -f 'line = %.0f' $((k * k)); } > "$1/p/file$k.py"
    old=
    ((k % 2)) || old='/*\n * SPDX-License-Identifier: ISC\n */\n\n'
    { printf %b "$old" && seq -f 'int f%.0f;' $((k * 9)); } > "$1/c/file$k.c"
  done
  for k in {1..24}; do head -c $((k * 700)) /dev/urandom > "$1/art/deep/picture$k.png"; done
  for k in 1 2; do
    echo 'SPDX-License-Identifier: CC0-1.0' > "$1/art/deep/picture$k.png.license"
  done
  for k in {1..6}; do
    echo "<p>page $k</p>" > "$1/web/page$k.html"
    echo "p { margin: $k }" > "$1/web/page$k.css"
  done
  for k in 10 40; do
    printf '#!/bin/sh\n# SPDX-FileCopyrightText: 2001 Old Holder\n\n' > "$1/long$k.sh"
    seq -f 'echo %05.0f' $((k * 512)) >> "$1/long$k.sh"
  done
}

# Makes a state of another one by calls, each in one word.
make_state() {
  local made=$room/states/$1 words
  cp -a "$room/states/$2" "$made"
  shift 2
  for words; do
    eval "\"\$program\" --root \"\$made\" $words" > "$room/out" || stop "$words is refused"
  done
}
first='annotate -c "Jane Doe" -l MIT -y 2024 -r .'
second='annotate -c "Max Roe" -y 2025 -r .'
mkdir -p "$room/states/plain" "$room/states/dep5" "$room/texts"
make_tree "$room/states/plain/start"
make_state dep5/start plain/start
make_dep5 "$room/states/dep5/start"
make_state plain/annotated plain/start "$first"
make_state plain/twice plain/annotated "$second"
make_state plain/undone plain/annotated undo
make_state plain/half plain/twice undo
make_state plain/late plain/start "${first/ ./ p art}" "${second/ ./ c web}"
for id in MIT ISC 0BSD; do seq -f "$id %.0f" 300 > "$room/texts/$id.txt"; done

cat > "$room/runs" << RUNS
annotate             plain/start      $first
'a second annotate'  plain/annotated  $second
undo                 plain/annotated  undo
undo                 plain/twice      undo
redo                 plain/undone     redo
redo                 plain/half       redo
revert               plain/late       revert 1
revert               plain/annotated  revert 1
'other calls'        plain/start      download --texts $room/texts MIT ISC 0BSD
'other calls'        dep5/start       convert-dep5
rollback             plain/start      $first
rollback             plain/twice      undo
rollback             plain/undone     redo
RUNS

mount_disk ext4 128M 'mkfs.ext4 -q' defaults
mount_disk ext4_noauto_da_alloc 128M 'mkfs.ext4 -q' noauto_da_alloc
left_out=
if grep -qw xfs /proc/filesystems || modprobe xfs 2> "$room/out"; then
  mount_disk xfs 512M 'mkfs.xfs -q' defaults
else
  left_out='; XFS not tried, which this kernel does not know'
fi

# The disks lose power side by side.
for k in "${!disks[@]}"; do
  name=${names[k]%%:*}
  python3 "$crash" "$program" "$room/states" "$rounds" "${devices[k]}" "${disks[k]}" \
    "${names[k]#*:}" "$room/faults/$name" < "$room/runs" > "$room/$name.out" 2>&1 &
  pids+=($!)
done
faulty=0
for k in "${!disks[@]}"; do
  name=${names[k]%%:*}
  status=0
  wait "${pids[k]}" || status=$?
  sed "s/^/$name, /" "$room/$name.out"
  case $status in
    0) ;;
    3) faulty=1 ;;
    *) stop "$name ended with status $status" ;;
  esac
done
pids=()
counted=$((rounds * $(cat "$room"/*.out | grep -c 'losses of power')))
if ((faulty)); then
  end
  trap - EXIT
  rm -rf "$room/states" "$room/texts"
  echo "fault: $counted losses of power on ${#disks[@]} disks took files or history$left_out;" \
    "trees are kept in $room/faults" >&2
  exit 1
fi
echo "$counted losses of power on ${#disks[@]} disks: no file lost or torn, each history opens as" \
  "before or as after$left_out"
