# What a run is measured against, and what was least. Sourced after tests/common.sh, it builds in
# `$room` the `floor`, a C program that writes each file of a tree aside, and `hash_speed`, the path
# of a program that hashes each file of a list twice with the kit's SHA-256.
cc -O2 -o "$room/floor" "$(dirname "${BASH_SOURCE[0]}")/floor.c"
measured=$program
build=$room/build
mkdir "$build"
. "$(dirname "${BASH_SOURCE[0]}")/build.sh" hash_speed sha2
hash_speed=$program
program=$measured

# Notes the times and the peak memory of a command if it was never faster: seconds, user, system,
# kB.
declare -A best
note() {
  if [[ -z ${best[$1]:-} ]] ||
    awk -v one="${2%% *}" -v other="${best[$1]%% *}" 'BEGIN { exit !(one < other) }'; then
    best[$1]=$2
  fi
}

# Notes the seconds in which each file of a tree is hashed twice.
hashing() {
  find "$1" -type f > "$room/list"
  note hashing "$("$hash_speed" "$room/list" | cut -d' ' -f1) 0 0 0"
}
