#!/usr/bin/env bash
# Measures what the gate does for each crate: its proof, each must-fail edit and the program's build
# and run, in processor seconds and wall time, and lists the twenty slowest functions and edits. It
# works in a copy of the repository, one check at a time and from nothing, so the seconds are those
# of one processor; the gate has several checks side by side. A function's time is that between its
# line of the check and the line before, so the first that cites a lemma pays for it.
# usage: bench/gate_profile.sh [-k] [-m EDITS] [-o TABLE] [CRATE..]
#   -k         begins with the work that the repository keeps in out/: no proof from nothing, but a
#              check of nothing new, which is what each edit costs at least, and the edits
#   -m EDITS   tries so many edits of each crate, evenly chosen (0: none), and not all
#   -o TABLE   keeps all figures in this file too: kind, crate, name, processor seconds, wall
#              seconds
# Without a CRATE it measures all of them, which takes hours.
set -euo pipefail
top=$(cd "$(dirname "$0")/.." && pwd)
rt=${RT:-rt}
most=1000
table=
kept=
while getopts km:o: flag; do
  case $flag in
    k) kept=1 ;;
    m) most=$OPTARG ;;
    o) table=$(realpath "$OPTARG") ;;
    *) exit 2 ;;
  esac
done
shift $((OPTIND - 1))
read -ra all <<< "$(sed -n 's/^\([a-z0-9_]*\):.*/\1/p' "$top/crates.txt" | tr '\n' ' ')"
crates=("${@:-${all[@]}}")
room=$(mktemp -d)
trap 'rm -rf "$room"' EXIT
trap 'exit 130' INT TERM
tar -C "$top" --exclude=./.git --exclude=out -cf - . | tar -C "$room" -xf -
: > "$room/table"

# Runs a command in a crate's folder, with the moment before each line of its output in $room/log,
# and sets `spent`, its processor and wall seconds.
measure() {
  local folder=$1 status=0
  shift
  TIMEFORMAT='%U %S %R'
  { time (cd "$folder" && "$@" 2>&1) < /dev/null \
    > >(while IFS= read -r line; do printf '%s %s\n' "$EPOCHREALTIME" "$line"; done \
    > "$room/log") || status=$?; } 2> "$room/time"
  wait
  spent=$(awk 'END { printf "%.1f\t%.1f", $1 + $2, $3 }' "$room/time")
  return $status
}
note() {
  printf '%s\t%s\t%s\t%s\n' "$@" >> "$room/table"
  printf '%-9s %-14s %-50s %s\n' "${@:1:3}" "${4/$'\t'/ }" >&2
}

# What each function took
functions() {
  awk -v crate="$1" '
    $2 == "checked" {
      sub(/,$/, "", $3)
      took = $1 - last
      if (last) printf "function\t%s\t%s\t%.1f\t%.1f\n", crate, $3, took, took
    }
    { last = $1 }' "$room/log" >> "$room/table"
}

# Applies an edit to a copy of the crate.
apply() {
  local line path= old= text
  while IFS= read -r line; do
    case $line in
      'file: '*) path=$1/${line#file: } ;;
      'old: '*) old=${line#old: } ;;
      new:*)
        line=${line#new:}
        text=$(cat "$path"; echo x)
        text=${text/"$old"/"${line# }"}
        printf %s "${text%x}" > "$path"
        ;;
    esac
  done < "$2"
}

# Proves a crate from nothing, and builds and runs a program.
prove() {
  local crate=$1 folder=$2
  rm -rf "$folder/out"
  measure "$folder" "$rt" check --jobs 1 || { tail -n 20 "$room/log"; exit 1; }
  note proof "$crate" "$(grep -o 'functions=[0-9]*' "$room/log" || true)" "$spent"
  functions "$crate"
  if [ -e "$folder/src/main.rt" ]; then
    measure "$folder" "$rt" run --jobs 1 -- log || { tail -n 20 "$room/log"; exit 1; }
    note run "$crate" "program, built and run" "$spent"
  fi
}

for crate in "${crates[@]}"; do
  folder=$room/crates/$crate
  # the libraries that it stands on: as the repository keeps them, or proved now
  for below in "${all[@]}"; do
    [ "$below" != "$crate" ] || break
    [ -e "$room/crates/$below/out" ] || ! [ -d "$top/crates/$below/out" ] ||
      cp -a "$top/crates/$below/out" "$room/crates/$below/"
    (cd "$room/crates/$below" && [ -e out/rlib/stamp ] || "$rt" lib --jobs 1) > "$room/below" \
      2>&1 || { tail -n 20 "$room/below"; exit 1; }
  done
  if [ "$kept" ]; then
    [ -e "$folder/out" ] || cp -a "$top/crates/$crate/out" "$folder/"
    (cd "$folder" && "$rt" check --jobs 1) > "$room/log" 2>&1 || { tail -n 20 "$room/log"; exit 1; }
    measure "$folder" "$rt" check --jobs 1
    note again "$crate" "nothing new" "$spent"
  else
    prove "$crate" "$folder"
  fi
  tried=("$folder"/must-fail/*.edit)
  if [ "$most" -gt 0 ] && [ -e "${tried[0]}" ]; then
    step=$(((${#tried[@]} + most - 1) / most))
    cp -r "$folder/src" "$folder/specs" "$folder/proofs" -t "$(mktemp -d "$room/whole.XXXX")" \
      2> /dev/null || true
    whole=$(ls -d "$room"/whole.*)
    for ((at = 0; at < ${#tried[@]}; at += step)); do
      edit=${tried[$at]}
      apply "$folder" "$edit"
      measure "$folder" "$rt" check --jobs 1 || true
      note edit "$crate" "$(basename "$edit")" "$spent"
      rm -rf "$folder"/{src,specs,proofs}
      cp -r "$whole"/* "$folder/"
    done
    rm -rf "$whole"
  fi
done
[ ! "$table" ] || cp "$room/table" "$table"
table=$room/table

echo
echo 'kind      crate          of                   processor s    wall s'
awk -F'\t' '
  function row(kind, crate, of, busy, took) {
    printf "%-9s %-14s %-24s %8.1f %9.1f\n", kind, crate, of, busy, took
  }
  $1 != "function" && $1 != "edit" { row($1, $2, $3, $4, $5) }
  $1 == "edit" { number[$2]++; cpu[$2] += $4; wall[$2] += $5 }
  END { for (it in number) row("edits", it, number[it] " together", cpu[it], wall[it]) }' "$table"
for kind in function edit; do
  echo
  echo "the slowest of kind $kind, wall s"
  awk -F'\t' -v kind=$kind '$1 == kind { printf "%8.1f  %s %s\n", $5, $2, $3 }' "$table" |
    sort -rn | head -n 20
done
