#!/usr/bin/env bash
# Measures annotate of a part of a tree, on a tmpfs. The tree has 60,000 files, of which 54,000 lie
# in `node_modules`, and the part is chosen by `-r src`, by `-r . --exclude node_modules` and by a
# list of 632 files. Beside each call in the same run: the same call on a copy without
# `node_modules`. Prints of each call which folders it reads, by strace: how often one is opened and
# how often one is read to its end, and how many of these aren't asked for; and the least seconds of
# so many rounds, with the ratio to the call on the copy. Ends with status 1 if a folder is read
# that isn't asked for, or if both calls don't change the same files.
# usage: bench/chosen_folders.sh PROGRAM [ROUNDS]      (9 rounds by default)
# The tags below are data: REUSE-IgnoreStart
set -euo pipefail
. "$(dirname "$0")/../tests/common.sh"
wants strace strace
rounds=${2:-9}

# fill FOLDER FOLDERS FILES END: so many files in so many folders, three levels deep, each file of
# one line
fill() {
  local folder=$1 folders=$2 files=$3 end=$4 k names=()
  for ((k = 0; k < folders; k++)); do
    names+=("$folder/p$((k / 64))/q$((k / 8 % 8))/r$((k % 8))")
  done
  mkdir -p "${names[@]}"
  for ((k = 0; k < files; k++)); do
    printf 'line = %s\n' $k > "${names[k % folders]}/file$((k / folders)).$end"
  done
}

# The copy: 632 files in src, and 5,368 beside it
make_trees() {
  fill "$room/copy/src" 12 632 py
  fill "$room/copy/lib" 96 5368 py
  cp -r "$room/copy" "$room/whole"
  fill "$room/whole/node_modules" 6750 54000 js
  (cd "$room/copy" && find src -type f | LC_ALL=C sort) > "$room/list"
  (($(wc -l < "$room/list") == 632)) || fail 'the list has not 632 paths'
}

# Which folders a call may read, by their paths below the root: a pattern of grep
declare -A may_read=(
  ['-r src']='src(/.*)?'
  ['-r . --exclude node_modules']='(src|lib)(/.*)?|'
  ['--files-from']='src(/.*)?|'
)
calls=('-r src' '-r . --exclude node_modules' '--files-from')
words_of() {
  case $1 in
    --files-from) words=(-r . --files-from "$room/list") ;;
    *) read -ra words <<< "$1" ;;
  esac
  words=(annotate -c 'Jane Doe' -y 2024 -l MIT "${words[@]}")
}

# The folders of the tree that a call opens to read them, each as often as it does, and those that
# it reads to the end, by their paths below the root. The journal's aren't counted.
folders_read() {
  local tree=$1
  shift
  strace -f -y -qq -e trace=openat,getdents64 -o "$room/trace" "$program" --root "$tree" "$@" \
    > "$room/out" || fail "$* is refused"
  sed -nE 's/.*openat\(.*O_DIRECTORY.*\) = [0-9]+<(.*)>$/\1/p' "$room/trace" | below "$tree" \
    > "$room/opened"
  sed -nE 's/.*getdents64\([0-9]+<(.*)>, .* = 0$/\1/p' "$room/trace" | below "$tree" > "$room/read"
}
below() { sed -nE "s#^$1(/|\$)##p" | { grep -vE '^\.reuse(/|$)' || true; }; }

# Counts what a call on a tree reads: of the folders that it reads to the end all are to be such as
# it may read.
count_of() {
  local call=$1 tree=$2 others
  words_of "$call"
  folders_read "$tree" "${words[@]}"
  others=$(grep -cvxE "${may_read[$call]}" "$room/read" || true)
  echo "$(wc -l < "$room/opened") folders opened, $(wc -l < "$room/read") read, of which $others" \
    "not asked for"
  ((others == 0)) || fail "$call reads $(grep -vxEm 3 "${may_read[$call]}" "$room/read")"
  "$program" --root "$tree" undo > "$room/out.undo"
}

declare -A best
measure() {
  local call=$1 kind=$2 tree=$room/$2 start took
  words_of "$call"
  start=${EPOCHREALTIME/./}
  "$program" --root "$tree" "${words[@]}" > "$room/out.$kind" || fail "$call: refused on the $kind"
  took=$((${EPOCHREALTIME/./} - start))
  if [[ -z ${best[$call $kind]:-} ]] || ((took < ${best[$call $kind]})); then
    best[$call $kind]=$took
  fi
  "$program" --root "$tree" undo > "$room/out.undo"
}

make_trees
folders=$(find "$room/whole" -type d | wc -l)
echo "60,000 files in $folders folders (load $(cut -d' ' -f1 /proc/loadavg)):"
for call in "${calls[@]}"; do
  for ((k = 0; k < rounds; k++)); do
    measure "$call" whole
    measure "$call" copy
    cmp -s "$room/out.whole" "$room/out.copy" || fail "$call: other files than on the copy"
  done
  echo "  $call: $(wc -l < "$room/out.whole") files changed"
  for kind in whole copy; do
    printf '    %-5s %s; %s s\n' $kind "$(count_of "$call" "$room/$kind")" \
      "$(awk -v took="${best[$call $kind]}" 'BEGIN { printf "%.3f", took / 1e6 }')"
  done
  awk -v whole="${best[$call whole]}" -v copy="${best[$call copy]}" \
    'BEGIN { printf "    %.2f of the copy\n", whole / copy }'
done
