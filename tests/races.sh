#!/usr/bin/env bash
# Swaps what a run works on for something else at its system calls, at each of them or at some: the
# run is stopped there by strace, and goes on once the swap is made. A folder becomes a link to a
# folder outside of the tree that has files of the same names, a file becomes a link, a pipe or
# another file, or it grows, a folder becomes another folder, and so does the journal's. The runs
# are annotate, undo, and an opening that sets a stopped run back. The tree's folders may be written
# by others, as where others can make such swaps. Nothing outside may be read or written, each file
# of the tree must be as before the run or as after it, and no run may wait. What is put into a file
# before the run last looks at it may not be lost. Once the swap is taken back the journal must
# open, or tell which file it can't set back. Prints how many rounds there were; ends with status 1
# at the first fault.
# usage: tests/races.sh PROGRAM [ROUNDS]
# ROUNDS is at how many of its calls each run is stopped for each swap: at all by default, else at
# ones that are picked by chance, evenly spread.
# The tags below are data: REUSE-IgnoreStart
set -euo pipefail
. "$(dirname "$0")/common.sh"
wants strace strace
tree=$room/tree away=$room/away outside=$room/outside other=$room/other
annotate=(annotate -l MIT -r .)
calls=openat,statx,read,getdents64,write,close,rename,link,unlink,mkdir,fsync,fdatasync
added='added = 1'
rounds=0 refused=0 kept=0
declare -A runs=([annotate]="${annotate[*]}" [undo]=undo [rollback]=log)

# The seconds after which a run that was made to go on counts as one that waits
patience=10

make_states() {
  files top.py 'x = 1\n' sub/a.py 'x = 2\n' sub/b.py 'x = 3\n' sub/deep/c.py 'x = 4\n' \
    sub/p.png 'x'
  chmod -R go+w "$tree"
  mkdir -m 777 "$tree/.reuse" "$tree/.reuse/undo"
  cp -a "$tree" "$room/annotate"
  "$program" --root "$tree" "${annotate[@]}" > "$room/out"
  cp -a "$tree" "$room/undo"
  cp -a "$room/annotate" "$room/rollback"
  # The braces keep bash from telling the kill.
  {
    strace -qq -o "$room/trace" -e trace=rename -e inject=rename:signal=KILL:when=5 \
      "$program" --root "$room/rollback" "${annotate[@]}" > "$room/out" 2>&1 || true
  } 2> /dev/null
  is_pending "$room/rollback" || fail 'no step is pending after a kill'
}

# What lies outside: files of the same names, with a word that nothing else has
make_outside() {
  local path
  mkdir -p "$outside/undo"
  cp -a "$room/undo/sub" "$outside/sub"
  cp -a "$room/undo/.reuse/undo/." "$outside/undo/"
  mkfifo "$outside/pipe"
  find "$outside" -type f | while read -r path; do echo '# secret' >> "$path"; done
  find "$outside" -not -type p | sort > "$room/listed"
  # Long ago, so that each reading shows
  xargs -d '\n' -a "$room/listed" touch -d '2001-01-01'
  look_outside > "$room/seen"
}

# Times, bits and sizes of all that lies outside. Looking so reads nothing of it.
look_outside() { xargs -d '\n' -a "$room/listed" stat -c '%n %X %Y %s %a %i'; }

# Swaps: each takes something away, and puts something else there.
folder_for_link() {
  mv "$tree/sub" "$away/sub"
  ln -sT "$outside/sub" "$tree/sub"
}
folder_for_folder() {
  mv "$tree/sub" "$away/sub"
  cp -aT "$other" "$tree/sub"
}
file_for_link() {
  mv "$tree/sub/a.py" "$away/a.py"
  ln -sT "$outside/sub/a.py" "$tree/sub/a.py"
}
file_for_pipe() {
  mv "$tree/sub/a.py" "$away/a.py"
  mkfifo -m 666 "$tree/sub/a.py"
}
file_for_file() {
  mv "$tree/sub/a.py" "$away/a.py"
  echo "$added" > "$tree/sub/a.py"
}
file_grows() { echo "$added" >> "$tree/sub/a.py"; }
journal_for_link() {
  mv "$tree/.reuse/undo" "$away/undo"
  ln -sT "$outside/undo" "$tree/.reuse/undo"
}

# Takes a swap back; of what was put into a file nothing.
put_back() {
  case $1 in
    folder_for_link | folder_for_folder)
      rm -rf "$tree/sub"
      mv -T "$away/sub" "$tree/sub"
      ;;
    file_for_link | file_for_pipe)
      # A run that had read the file has put its new one there.
      [[ -f $tree/sub/a.py && ! -L $tree/sub/a.py ]] || mv -f "$away/a.py" "$tree/sub/a.py"
      ;;
    journal_for_link)
      rm -rf "$tree/.reuse/undo"
      mv -T "$away/undo" "$tree/.reuse/undo"
      ;;
  esac
}

# Waits for this time, in seconds. Nothing is ever written to that pipe.
mkfifo "$room/clock"
exec 8<> "$room/clock"
pause() { ! read -rt "$1" -u 8; }

# Waits until the run is stopped; not if it has ended. Each call stops it for a moment, too.
is_stopped() {
  local state='' times=0
  while ((times < 3)) && read -r state < "/proc/$1/stat" && [[ $state != *') Z '* ]]; do
    if [[ $state == *') t '* ]]; then times=$((times + 1)); else times=0; fi
    pause 0.001
  done 2> /dev/null
  ((times == 3))
}

# Lets the run go on, and waits until it has ended, if it does.
has_ended() {
  local state until=$((SECONDS + patience))
  while read -r state < "/proc/$1/stat" && [[ $state != *') Z '* ]]; do
    ((SECONDS <= until)) || return 1
    kill -CONT "$1"
    pause 0.002
  done 2> /dev/null
  return 0
}

# The checksums of the files below a folder, but those of the journal and new ones
sums() {
  (cd "$1" && find . -type f -not -path '*.reuse*' -exec sha256sum {} +)
}

# Each file in this folder, which is, or was, this one of the tree, has the bytes of before the run
# or of after it.
check_files() {
  sums "$1" | sed "s#  ./#  $2#" | grep -vxF -f "$room/allowed" > "$room/odd" || return 0
  fail "$3: neither as before nor as after: $(< "$room/odd")"
}

# One round: this run, this swap, at this one of its system calls; none if the run makes fewer.
round() {
  local run=$1 swap=$2 at=$3 call number name pid
  read -r call number <<< "${stops[at]}"
  name="$run, $swap at $call $number"
  rm -rf "$tree" "$away"
  cp -a "$room/$run" "$tree"
  mkdir "$away"
  # shellcheck disable=SC2086
  strace -D -qq -o "$room/trace" -e "trace=$call" -e "inject=$call:signal=STOP:when=$number" \
    "$program" --root "$tree" ${runs[$run]} > "$room/out" 2>&1 &
  pid=$!
  if ! is_stopped $pid; then
    wait $pid || true
    return 1
  fi
  $swap
  if ! has_ended $pid; then
    kill -KILL $pid
    fail "$name: the run waits"
  fi
  wait $pid || refused=$((refused + 1))
  look_outside | cmp -s - "$room/seen" ||
    fail "$name: what lies outside was read or written: $(look_outside | diff - "$room/seen")"
  ! grep -rqI secret "$tree" "$away" || fail "$name: what lies outside came in"
  check_files "$tree" '' "$name"
  [[ ! -d $away/sub ]] || check_files "$away/sub" sub/ "$name"
  [[ ! -f $away/a.py ]] || check_files "$away" sub/ "$name"
  if ((at < ${looks[$swap]-0})); then
    grep -qxF "$added" "$tree/sub/a.py" || fail "$name: what was put in before is lost"
    kept=$((kept + 1))
  fi
  put_back "$swap"
  "$program" --root "$tree" log > "$room/out" 2>&1 ||
    grep -qE '^reuse-undo: (interrupted|sub/[a-z/.]+: moved)' "$room/out" ||
    fail "$name: $(< "$room/out")"
  rounds=$((rounds + 1))
}

make_states
make_outside
cp -a "$room/annotate/sub" "$other"
# The files of before and after, one that was put in the place of a file, and one that grew
mkdir -p "$room"/{replaced,grown}/{plain,written}/sub
echo 'x = 2' | tee "$room/grown"/{plain,written}/sub/a.py > "$room/out"
for state in replaced grown; do
  echo "$added" | tee -a "$room/$state"/{plain,written}/sub/a.py > "$room/out"
  sed -i '1i # SPDX-License-Identifier: MIT\n' "$room/$state/written/sub/a.py"
done
for state in annotate undo {replaced,grown}/{plain,written}; do sums "$room/$state"; done |
  sed 's#  ./#  #' > "$room/allowed"
# The calls at which a run can be stopped: the name of each, and the how manieth of that name it is.
# At which of them the run last opens and reads the file that is swapped, before it writes it anew;
# if it doesn't, the last of all.
note_calls() {
  local last=()
  rm -rf "$tree"
  cp -a "$room/$1" "$tree"
  # shellcheck disable=SC2086
  strace -qq -o "$room/trace" -e "trace=$calls" "$program" --root "$tree" ${runs[$1]} \
    > "$room/out" 2>&1
  mapfile -t stops < <(sed 's/(.*//' "$room/trace" | awk '{ print $1, ++times[$1] }')
  read -ra last < <(awk '
    /^openat\(.*\/a\.py"/ { opened = NR - 1; is_open = 1 }
    /^read\(/ && is_open { was_read = NR - 1; is_open = 0 }
    /^rename\(.*\/a\.py"\)/ { is_written = 1; exit }
    END { print is_written ? opened " " was_read : NR " " NR }' "$room/trace")
  looks=([file_for_file]=${last[0]} [file_grows]=${last[1]})
}

declare -A looks
for run in annotate undo rollback; do
  note_calls $run
  count=${2:-${#stops[@]}}
  ((count <= ${#stops[@]})) || count=${#stops[@]}
  for swap in folder_for_link folder_for_folder file_for_link file_for_pipe file_for_file \
    file_grows journal_for_link; do
    for ((k = 0; k < count; k++)); do
      first=$((k * ${#stops[@]} / count)) next=$(((k + 1) * ${#stops[@]} / count))
      round $run $swap $((first + RANDOM % (next - first))) || true
    done
  done
  echo "$run: no swap does harm, at $count of its ${#stops[@]} calls"
done
echo "$rounds rounds, of which $refused were refused: nothing outside was read or written, no run" \
  "waits, and what was put into a file before its last look is there, $kept times"
