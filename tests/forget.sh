#!/usr/bin/env bash
# Steps are taken out of the history: the oldest, one in the middle, undone ones and all. The files
# stay, the other steps are undone and redone, and no number is given out again. What can't be
# forgotten is refused, and changes nothing. A journal that is full of done steps takes a step
# again. Where forgetting is killed at each of its system calls that change a file, the log lists
# the steps of before or of after it, and the files stay.
# usage: tests/forget.sh PROGRAM
# The tags below are data: REUSE-IgnoreStart
set -euo pipefail
. "$(dirname "$0")/common.sh"
wants strace strace
tree=$room/tree

# The numbers of the log, each with its state
steps() {
  "$program" --root "$tree" log | sed -E 's/^([0-9]+) .* (done|undone)$/\1 \2/' | tr '\n' ' '
}

sums() {
  (cd "$tree" &&
    find . -path ./.reuse/undo -prune -o -type f -print0 | sort -z | xargs -0 sha256sum)
}

entries() { (cd "$tree/.reuse/undo" && printf '%s ' 0*.json); }

# Four steps, of which the last two are undone
make_history() {
  files a.py 'x = 1\n' b.py 'y = 2\n' c.py 'z = 3\n' d.py 'w = 4\n'
  for name in a b c d; do "$program" --root "$tree" annotate -l MIT $name.py > "$room/out"; done
  "$program" --root "$tree" undo > "$room/out"
  "$program" --root "$tree" undo > "$room/out"
}

files a.py 'x = 1\n'
is "$(answer_of forget --all)" $'nothing changed\nstatus 0' "without a journal"
is "$(answer_of forget 1)" $'reuse-undo: no such step: 1\nstatus 1' "a step without a journal"
[[ ! -e $tree/.reuse ]] || fail "forgetting nothing makes a folder"

make_history
sums > "$room/before"
is "$(steps)" '1 done 2 done 3 undone 4 undone ' "the log at first"
cp -a "$tree" "$room/whole"
is "$(answer_of forget 2 7 9)" $'reuse-undo: no such step: 7\nstatus 1' "a step that isn't there"
diff -r "$room/whole" "$tree" > "$room/out" || fail "a refused call changed the tree"
for words in 'forget' 'forget --all 1' 'forget x' 'forget -1' 'forget 1 4294967296'; do
  [[ $(answer_of $words) == *'status 2' ]] || fail "$words: $(cat "$room/answer")"
done
is "$(answer_of forget 1)" $'forgot 1\nstatus 0' "the oldest step"
is "$(steps)" '2 done 3 undone 4 undone ' "the log without the oldest"
is "$(entries)" '000002.json 000003.json 000004.json ' "the entries without the oldest"
sums | cmp - "$room/before" || fail "forgetting changed a file"
is "$(answer_of redo)" $'redone c.py\nstatus 0' "redo afterwards"
is "$(answer_of undo)" $'undone c.py\nstatus 0' "undo of that"
is "$(answer_of undo)" $'undone b.py\nstatus 0' "undo of the step above the oldest"
is "$(answer_of undo)" $'reuse-undo: nothing to undo\nstatus 1' "undo of what is forgotten"
is "$(answer_of redo)" $'redone b.py\nstatus 0' "redo of that"
is "$(answer_of forget 4 2 4)" $'forgot 2\nforgot 4\nstatus 0' \
  "a done and an undone step, one of them twice"
is "$(steps)" '3 undone ' "the log without these"
is "$(answer_of annotate -l ISC d.py)" $'changed d.py\nstatus 0' "a step afterwards"
is "$(steps)" '5 done ' "no number is given out again"
is "$(answer_of forget --all)" $'forgot 5\nstatus 0' "all"
is "$(answer_of forget --all)" $'nothing changed\nstatus 0' "all once more"
is "$(answer_of log)" 'status 0' "the log without all"
is "$(answer_of undo)" $'reuse-undo: nothing to undo\nstatus 1' "undo without all"

# A journal that lists as many done steps as it can
make_history
numbers=$(seq -s, 1 4096)
for ((k = 2; k <= 4096; k++)); do
  ln -f "$tree/.reuse/undo/000001.json" "$(printf '%s/.reuse/undo/%06d.json' "$tree" $k)"
done
printf '{"done":[%s],"format":2,"next":4097,"pending":null,"undone":[]}' "$numbers" \
  > "$tree/.reuse/undo/head.json"
is "$(answer_of annotate -l ISC d.py)" $'reuse-undo: journal full\nstatus 1' "a full journal"
is "$(answer_of forget $(seq 1 4000) | tail -n 2)" $'forgot 4000\nstatus 0' \
  "forgetting in a full journal"
is "$(answer_of annotate -l ISC d.py)" $'changed d.py\nstatus 0' \
  "a step afterwards in what was a full journal"
# The numbers are used up for good
sed -E 's/"next":[0-9]+/"next":1000000/' -i "$tree/.reuse/undo/head.json"
is "$(answer_of forget --all | tail -n 1)" 'status 0' "forgetting where no number is left"
is "$(answer_of annotate -l MIT c.py)" $'reuse-undo: journal full\nstatus 1' \
  "a step where no number is left"

# Killed at each system call that changes a file
make_history
rm -rf "$room/whole"
cp -a "$tree" "$room/whole"
before='1 done 2 done 3 undone 4 undone ' after='2 done 4 undone '
was_before=0 was_after=0
for call in rename renameat renameat2 unlink unlinkat fsync fdatasync; do
  for ((number = 1; ; number++)); do
    rm -rf "$tree"
    cp -a "$room/whole" "$tree"
    {
      strace -f -qq -o "$room/trace" -e "trace=$call" -e "inject=$call:signal=KILL:when=$number" \
        "$program" --root "$tree" forget 1 3 > "$room/out" 2>&1
    } 2> /dev/null && break
    found=$(steps)
    case $found in
      "$before") was_before=$((was_before + 1)) ;;
      "$after") was_after=$((was_after + 1)) ;;
      *) fail "killed at $call $number: $found" ;;
    esac
    sums | cmp - "$room/before" || fail "killed at $call $number, a file changed"
  done
done
((was_before && was_after)) || fail "no kill left the history of before, or none that of after"
echo "the oldest, a middle one, undone ones and all are forgotten; $((was_before + was_after))" \
  "kills:" \
  "the log is that of before $was_before times, of after $was_after"
