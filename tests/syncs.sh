#!/usr/bin/env bash
# Which system calls make a run lasting, and in which order, by strace. The data of each new file is
# synced before its rename; files of a step are written together, then synced, then renamed. Behind
# the entry, the pending head, the files and the last head each folder that got or lost a name is
# synced, once. Behind the files that isn't the journal's, which lost the names of new files alone.
# A call that writes nothing makes no sync, and neither does one with --no-sync. A file system that
# can't sync folders counts as synced. No sync follows one that failed, and a note names what
# couldn't be synced. Prints how many runs were traced; ends with status 1 at the first fault.
# usage: tests/syncs.sh PROGRAM
# The tags below are data: REUSE-IgnoreStart
set -euo pipefail
. "$(dirname "$0")/common.sh"
wants strace strace
tree=$room/tree
annotate=(annotate -s python -l MIT)
new=.reuse/undo/new
runs=0

# Runs the program on the tree by strace, with these options of it up to a `--`.
trace() {
  local options=()
  while [[ $1 != -- ]]; do
    options+=("$1")
    shift
  done
  # The braces keep bash from telling each kill.
  {
    strace -f -qq -y -o "$room/trace" "${options[@]}" \
      -e trace=openat,fcntl,fsync,fdatasync,sync,syncfs,sync_file_range,rename,link,unlink,mkdir,rmdir \
      "$program" -v --root "$tree" "${@:2}" > "$room/out" 2>&1
  } 2> /dev/null
}

# In what strace wrote, the folders in place of the handles that lead to them: a path through one is
# absolute, or begins with its number, as the run stays where its handles are shown. Openings are
# left out.
named() {
  awk '
    match($0, / = [0-9]+<[^>]*>$/) {
      split(substr($0, RSTART + 3, RLENGTH - 4), opened, "<")
      folder[opened[1]] = opened[2]
    }
    / (openat|fcntl)\(/ { next }
    {
      while (match($0, "/proc/[0-9]+/fd/[0-9]+")) {
        split(substr($0, RSTART, RLENGTH), parts, "/")
        $0 = substr($0, 1, RSTART - 1) folder[parts[5]] substr($0, RSTART + RLENGTH)
      }
      while (match($0, "\"[0-9]+/")) {
        handle = substr($0, RSTART + 1, RLENGTH - 2)
        $0 = substr($0, 1, RSTART) folder[handle] "/" substr($0, RSTART + RLENGTH)
      }
      print
    }' "$room/trace"
}

# What that run asked for, a line each, with paths below the root: `data` of a file that is synced,
# `folder` of a folder that is, and else the call. Kills and calls that are killed are left out.
traced() {
  named | sed -E -e '/^[0-9]+ \+\+\+/d' -e '/= \?$/d' -e 's/^[0-9]+ +//' -e "s#$tree/?##g" \
    -e 's/ *= (0|-1 .*)$//' \
    -e 's/^fdatasync\([0-9]+<(.*)>\)$/data \1/' -e 's/^fsync\([0-9]+<(.*)>\)$/folder \1/' \
    -e 's/^(rename|link)\("(.*)", "(.*)"\)$/\1 \2 \3/' \
    -e 's/^(unlink|rmdir|mkdir)\("([^"]*)".*\)$/\1 \2/' -e 's/^folder $/folder ./' | in_order
}

# Sorts new files that are removed one after the other, which come as the folder lists them.
in_order() {
  local line left=()
  while read -r line; do
    if [[ $line == "unlink $new"* ]]; then
      left+=("$line")
      continue
    fi
    ((${#left[@]} == 0)) || printf '%s\n' "${left[@]}" | sort
    left=()
    echo "$line"
  done
  ((${#left[@]} == 0)) || printf '%s\n' "${left[@]}" | sort
}

# Where the file of this number in a batch is written aside
new_name() { [[ $1 == 0 ]] && echo "$new" || echo "$new.$1"; }

# Spells out what these lines say: `put PATH` writes a file, `make PATH` makes one, `batch PATH..`
# writes files together, `barrier FOLDER..` syncs folders.
spell_out() {
  local words number
  while read -ra words; do
    case ${words[0]} in
      put) printf '%s\n' "data $new" "rename $new ${words[1]}" ;;
      make) printf '%s\n' "data $new" "link $new ${words[1]}" "unlink $new" ;;
      batch)
        for number in $(seq 0 $((${#words[@]} - 2))); do echo "data $(new_name "$number")"; done
        for number in $(seq 0 $((${#words[@]} - 2))); do
          echo "rename $(new_name "$number") ${words[number + 1]}"
        done
        ;;
      barrier) printf 'folder %s\n' "${words[@]:1}" ;;
      *) echo "${words[*]}" ;;
    esac
  done
}

# The run makes just the calls that the lines on standard input say, in this order.
makes() {
  spell_out > "$room/wanted"
  trace -- "$@" || fail "$*: $(< "$room/out")"
  traced > "$room/calls"
  cmp -s "$room/wanted" "$room/calls" || fail "$*: $(diff "$room/wanted" "$room/calls")"
  runs=$((runs + 1))
}
makes_none() { makes "$@" < /dev/null; }

# The calls of a step on an earlier one: its number, and the calls for its files; and without its
# entry, as for an undo
step() {
  printf '%s\n' "put .reuse/undo/$1.json" 'barrier .reuse/undo'
  replay "${@:2}"
}
replay() {
  local head=('put .reuse/undo/head.json' 'barrier .reuse/undo')
  printf '%s\n' "${head[@]}" "$@" "${head[@]}"
}

# The first step makes the journal's folder, whose name lasts too.
first_step() {
  files src/a.py 'x\n'
  makes "${annotate[@]}" src/a.py << 'CALLS'
mkdir .reuse
mkdir .reuse/undo
put .reuse/undo/000001.json
barrier . .reuse .reuse/undo
put .reuse/undo/head.json
barrier .reuse/undo
put src/a.py
barrier src
put .reuse/undo/head.json
barrier .reuse/undo
CALLS
  local one=('put src/a.py' 'barrier src')
  makes "${annotate[@]}" -l ISC src/a.py < <(step 000002 "${one[@]}")
  makes undo < <(replay "${one[@]}")
  makes redo < <(replay "${one[@]}")
  makes revert 2 < <(step 000003 "${one[@]}")
}

# Each folder once, whatever came and went in it
folders() {
  files a/x.py 'x\n' a/y.py 'x\n' b/deep/z.py 'x\n' c.py 'x\n'
  "$program" --root "$tree" "${annotate[@]}" c.py > "$room/out"
  makes "${annotate[@]}" -r a b < <(step 000002 'batch a/x.py a/y.py b/deep/z.py' \
    'barrier a b/deep')
  mkdir -p "$room/texts"
  echo 'Permission is granted' > "$room/texts/MIT.txt"
  makes download --texts "$room/texts" MIT < <(step 000003 'mkdir LICENSES' \
    'make LICENSES/MIT.txt' 'barrier . LICENSES')
  makes undo < <(replay 'unlink LICENSES/MIT.txt' 'barrier LICENSES')
  # A folder without files gives way to a file.
  mkdir -p "$tree/LICENSES/MIT.txt/in"
  makes redo < <(replay 'rmdir LICENSES/MIT.txt/in' 'rmdir LICENSES/MIT.txt' \
    'make LICENSES/MIT.txt' 'barrier LICENSES')
  make_dep5 "$tree"
  makes convert-dep5 < <(step 000004 'unlink .reuse/dep5' 'make REUSE.toml' \
    'barrier . .reuse')
}

# Calls that write nothing
none() {
  files a.py 'x\n'
  makes_none log
  makes_none "${annotate[@]}" -n a.py
  "$program" --root "$tree" "${annotate[@]}" a.py > "$room/out"
  makes_none "${annotate[@]}" a.py
  makes_none log
  makes_none show 1
  makes_none undo --dry-run
  local head="rename $new .reuse/undo/head.json"
  makes --no-sync undo < <(printf '%s\n' "$head" "rename $new a.py" "$head")
  makes redo --no-sync < <(printf '%s\n' "$head" "rename $new a.py" "$head")
}

# Kills the call at the Nth such call of the system: a file is replaced by a rename, and made by a
# link.
killed_at() {
  local call=$1 number=$2
  shift 2
  trace -e inject="$call:signal=KILL:when=$number" -- "$@" || true
  is_pending "$tree" || fail "$* is not pending after a kill at $call $number"
}

# What a killed run began is set back: first what it wrote of the journal lasts, then all its paths
# do, those too that are as before.
set_back() {
  files src/a.py 'x\n' src/b.py 'x\n' in/c.py 'x\n'
  killed_at rename 3 "${annotate[@]}" -r .
  makes log << CALLS
barrier .reuse/undo
barrier in src
unlink $new
unlink $new.1
unlink $new.2
put .reuse/undo/head.json
barrier .reuse/undo
CALLS
  files src/a.py 'x\n' src/b.py 'x\n' in/c.py 'x\n'
  killed_at rename 5 "${annotate[@]}" -r .
  makes log << CALLS
barrier .reuse/undo
unlink $new.2
put in/c.py
put src/a.py
barrier in src
put .reuse/undo/head.json
barrier .reuse/undo
CALLS
  # A folder that isn't there any more: the nearest one above it
  files p.png 'x'
  killed_at link 1 download --texts "$room/texts" MIT
  rmdir "$tree/LICENSES"
  makes log << CALLS
barrier .reuse/undo
barrier .
unlink $new
put .reuse/undo/head.json
barrier .reuse/undo
CALLS
}

# With this error at the Nth such call the run fails, makes no sync behind it, and tells this.
fails_at() {
  local call=$1 number=$2 told=$3
  rm -rf "$tree"
  cp -a "$room/kept" "$tree"
  ! trace -e inject="$call:error=EIO:when=$number" -- "${annotate[@]}" src/a.py ||
    fail "$call $number fails: status 0"
  sed -n '/INJECTED/,$p' "$room/trace" | sed 1d > "$room/later"
  ! grep -E 'fsync|fdatasync' "$room/later" || fail "$call $number fails, and a sync follows"
  grep -qxF "reuse-undo: note: can't $told: Input/output error (os error 5)" "$room/out" ||
    fail "$call $number fails: $(< "$room/out")"
  runs=$((runs + 1))
}
faults() {
  files src/a.py 'x\n' b.py 'x\n'
  "$program" --root "$tree" "${annotate[@]}" b.py > "$room/out"
  cp -a "$tree" "$room/kept"
  fails_at fdatasync 1 'write .reuse/undo/000002.json'
  fails_at fsync 1 'sync .reuse/undo'
  fails_at fdatasync 2 'write .reuse/undo/head.json'
  fails_at fsync 2 'sync .reuse/undo'
  fails_at fdatasync 3 'write src/a.py'
  fails_at fsync 3 'sync src'
  fails_at fdatasync 4 'write .reuse/undo/head.json'
  fails_at fsync 4 'sync .reuse/undo'
  # Where folders can't be synced
  for error in EINVAL EOPNOTSUPP; do
    rm -rf "$tree"
    cp -a "$room/kept" "$tree"
    trace -e inject=fsync:error=$error -- "${annotate[@]}" src/a.py ||
      fail "$error: $(< "$room/out")"
    [[ $(grep -c INJECTED "$room/trace") == 4 ]] || fail "$error: $(< "$room/trace")"
    runs=$((runs + 1))
  done
}

for group in first_step folders none set_back faults; do $group; done
echo "$runs runs make the syncs that they are to make, and no others"
