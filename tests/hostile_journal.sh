#!/usr/bin/env bash
# Opens journals whose entry or head is hostile: a text of 1 or 16 MB with as many values as fit, long
# texts, deep nesting, more keys or changes than an entry has, or a list that a later one supersedes.
# Each is refused as a bad journal. The process takes no more memory, above what a good journal takes,
# than four times the text and 64 MB. Prints what each text took. Ends with status 1 at the first
# fault.
# usage: tests/hostile_journal.sh PROGRAM
set -euo pipefail
. "$(dirname "$0")/common.sh"
wants /usr/bin/time time
tree=$room/tree
journal=$tree/.reuse/undo
mkdir -p "$journal"
printf 'print(1)\n' > "$tree/a.py"
good_head='{"done":[1],"format":2,"next":2,"pending":null,"undone":[]}'

# Repeats a text, as often as it fits in so many bytes.
fill() {
  text=$1 awk -v times=$(($2 / ${#1})) 'BEGIN {
    text = ENVIRON["text"]
    for (i = 0; i < 1000; i++) many = many text
    for (; times >= 1000; times -= 1000) printf "%s", many
    for (; times > 0; times--) printf "%s", text
  }' < /dev/null
}
# So many bytes of lines that tell their numbers: a format of awk's printf, with one number
count() {
  awk -v format="$1" -v room="$2" 'BEGIN {
    while (room > 0) {
      line = sprintf(format, ++n)
      printf "%s", line
      room -= length(line)
    }
  }' < /dev/null
}
# An entry whose changes are the standard input
entry() { printf '{"changes":%s' "$1" && cat && printf '%s,"command":"annotate","format":2,"when":1}' "$2"; }
# One change, with members before and after
change() { entry '[{' ',"kind":"make","new":"","path":"a"}]'; }
# A head whose list of done steps is the standard input
head_of() { printf '{"done":[' && cat && printf '1],"format":2,"next":2,"pending":null,"undone":[]}'; }

# The hostile entries, by name
entries='lists nested_lists objects numbers texts nulls huge_numbers deep long_text escapes long_hex
  keys keys_of_change values_of_change changes bad_changes superseded superseded_members bare_lists'
make_entry() {
  case $1 in
    lists) fill '[],' "$2" | entry '[' '[]]' ;;
    nested_lists) fill '[[],[[]]],' "$2" | entry '[' '[]]' ;;
    objects) fill '{},' "$2" | entry '[' '{}]' ;;
    numbers) fill '1,' "$2" | entry '[' '1]' ;;
    texts) fill '"",' "$2" | entry '[' '""]' ;;
    nulls) fill 'null,' "$2" | entry '[' 'null]' ;;
    huge_numbers) fill '1e308,' "$2" | entry '[' '1]' ;;
    deep) { fill '[' "$(($2 / 2))" && fill ']' "$(($2 / 2))"; } | entry '' '' ;;
    long_text) fill a "$2" | entry '"' '"' ;;
    escapes) fill '\u00e4' "$2" | entry '"' '"' ;;
    long_hex) fill 0f "$2" | entry '[{"kind":"make","new":"' '","path":"/"}]' ;;
    keys) { printf '{' && count '"%d":0,' "$2" && printf '"a":0}'; } ;;
    keys_of_change) count '"%d":0,' "$2" | change | sed 's/,,/,/' ;;
    values_of_change) { printf '"old":[' && fill '[],' "$2" && printf '[]]'; } | change ;;
    changes)
      count '{"kind":"make","new":"","path":"%07d"},' "$2" |
        entry '[' '{"kind":"make","new":"","path":"a"}]'
      ;;
    bad_changes) fill '{"kind":"make"},' "$2" | entry '[' '{}]' ;;
    superseded)
      printf '{"changes":[' && fill '[],' "$2"
      printf '[]],"changes":[],"command":"annotate","format":2,"when":1}'
      ;;
    superseded_members) fill '"old":[[],{}],' "$2" | change | sed 's/,,/,/' ;;
    bare_lists) { printf '[' && fill '[],' "$2" && printf '[]]'; } ;;
  esac
}
heads='head_lists head_numbers head_keys head_text'
make_head() {
  case $1 in
    head_lists) fill '[],' "$2" | head_of ;;
    head_numbers) fill '1,' "$2" | head_of ;;
    head_keys) { printf '{' && count '"%d":0,' "$2" && printf '"a":0}'; } ;;
    head_text) fill a "$2" | { printf '{"done":"' && cat && printf '"}'; } ;;
  esac
}

# The kilobytes that the program takes for a log, which has to print this
memory_of() {
  /usr/bin/time -q -f %M -o "$room/memory" "$program" --root "$tree" log > "$room/told" 2>&1 || true
  grep -q "$1" "$room/told" || fail "$2: $(head -c 200 "$room/told")"
  tail -n 1 "$room/memory"
}
"$program" --root "$tree" annotate -c 'Jane Doe' -l MIT -y 2024 a.py > "$room/told"
base=$(memory_of annotate 'a good journal')
cp "$journal/000001.json" "$room/entry"
most=0
# Opens the journal with the file of this name, of a shape and a size. Tests what it printed and took.
try() {
  local file=$1 shape=$2 size=$3 wanted=${4:-$1: bad journal} bytes taken
  bytes=$(stat -c %s "$journal/$file")
  taken=$(memory_of "$wanted" "$shape of $size bytes")
  taken=$(((taken - base) * 1024))
  ((taken <= 4 * bytes + (64 << 20))) || fail "$shape: a text of $bytes bytes takes $taken bytes of memory"
  echo "$shape of $bytes bytes: $taken bytes"
  ((taken <= most)) || most=$taken
}
for size in 1000000 16000000; do
  most=0
  for shape in $entries; do
    make_entry "$shape" "$size" > "$journal/000001.json"
    try 000001.json "$shape" "$size"
  done
  # A list that a good one supersedes takes no more.
  {
    printf '{"changes":[' && fill '[],' "$size" && printf '[]],'
    tail -c +2 "$room/entry"
  } > "$journal/000001.json"
  try 000001.json superseded_by_a_good_list "$size" annotate
  cp "$room/entry" "$journal/000001.json"
  for shape in $heads; do
    make_head "$shape" "$size" > "$journal/head.json"
    try head.json "$shape" "$size"
  done
  printf %s "$good_head" > "$journal/head.json"
  echo "texts of $size bytes take $((most / 1000000)) MB at most"
done
echo 'each hostile journal is refused, and takes at most four times its text and 64 MB'
