#!/usr/bin/env bash
# Runs the program, as root, on a tmpfs that fills up at each size in turn, from one where nothing
# can be put to one with room for the whole step. Each call must end, be told, and leave a tree and
# a log that the next call finds as before or, where it succeeded, as after; also the next call on
# the full disk. Prints how many calls met which end; ends with status 1 at the first fault.
# usage: tests/full_disk.sh PROGRAM
set -euo pipefail
. "$(dirname "$0")/common.sh"
((EUID == 0)) || skip 'it mounts a disk, and wants root'
disk=$room/disk
mkdir "$disk"
trap 'umount "$disk" 2> /dev/null; rm -rf "$room"' EXIT
# (so that no mount is left behind a fault)
fail() {
  echo "fault: $1" >&2
  exit 1
}
mount -t tmpfs -o size=1m tmpfs "$disk" 2> "$room/error" ||
  skip "it mounts a disk: $(< "$room/error")"
annotate=(annotate -c "Jane Doe" -l MIT -y 2024 -r .)
pages=$(($(getconf PAGESIZE) / 1024))

# Twenty files, of which each takes one page more once it is annotated
make_tree() {
  find "$disk" -mindepth 1 -delete
  mkdir "$disk/.reuse"
  for k in {10..29}; do head -c 4096 /dev/zero | tr '\0' '\n' > "$disk/$k.py"; done
}

# Leaves this many kB of the disk free.
leave() {
  local free
  free=$(df --output=avail -k "$disk" | tail -n 1)
  head -c $(((free - $1) * 1024)) /dev/zero > "$disk/.git"
}

# Makes a call with each amount of room, from a tree with this log.
try_all() {
  local name=$1 room_left found before after done_count=0 refused=0 interrupted=0
  shift
  for ((room_left = 0; ; room_left += pages)); do
    make_tree
    if [[ $name != annotate ]]; then "$program" --root "$disk" "${annotate[@]}" > "$room/out"; fi
    before=$(state_of "$disk")
    leave "$room_left"
    found=0
    "$program" --root "$disk" "$@" > "$room/out" 2>&1 || found=$?
    rm -f "$disk/.git"
    after=$(state_of "$disk") || fail "$name with $room_left kB: the log is refused"
    if ((found == 0)); then break; fi
    [[ $found == 1 && $after == "$before" ]] ||
      fail "$name with $room_left kB: status $found, and not as before"
    case $(< "$room/out") in
      'reuse-undo: store fault') refused=$((refused + 1)) ;;
      'reuse-undo: interrupted') interrupted=$((interrupted + 1)) ;;
      *) fail "$name with $room_left kB: $(cat "$room/out")" ;;
    esac
  done
  [[ $after != "$before" ]] || fail "$name with $room_left kB: nothing is changed"
  echo "$name: refused $refused times, interrupted $interrupted times, made with $room_left kB"
}

try_all annotate "${annotate[@]}"
try_all undo undo
