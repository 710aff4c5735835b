#!/usr/bin/env bash
# Scenes in a repository of git from which no call led out once, each with its way out: a killed run
# and an edit of a file that it had half changed; a killed run and `git checkout`; a step whose
# files git has set back; a step whose files are gone on another branch; a revert of a step below a
# later one; a killed conversion with a folder in the way; a damaged journal. Then annotate, undo,
# revert, convert-dep5 and download are killed at each call of the system that names or removes a
# file. A link, a pipe, a device, another folder or nothing takes the place of each path of the
# step, and of the folder above: what another program put there stays, and the rest goes back. Or a
# file or a folder is immutable, or a mount read-only: each call says so, and once it is writable
# all goes back. Ends with status 1 at the first fault.
# usage: tests/dead_ends.sh PROGRAM
# The tags below are data: REUSE-IgnoreStart
set -euo pipefail
# What this script mounts is seen by it alone, and gone at its end.
if [[ -z ${own_mounts:-} ]] && unshare --mount true 2> /dev/null; then
  own_mounts=yes exec unshare --mount "$0" "$@"
fi
. "$(dirname "$0")/common.sh"
wants git git
wants strace strace
tree=$room/tree
export GIT_CONFIG_GLOBAL=/dev/null GIT_CONFIG_NOSYSTEM=1
git() { command git -C "$tree" -c user.name=Jane -c user.email=jane@example.org "$@"; }

# A repository with these files in a first commit, and the journal ignored
repository() {
  files "$@"
  command git init -q -b main "$tree"
  echo '/.reuse/undo/' >> "$tree/.git/info/exclude"
  git add -A
  git commit -qm Start
}

# What a call prints and its status, the dates left out
told() {
  local status=0
  "$program" --root "$tree" "$@" > "$room/told" 2>&1 || status=$?
  sed -E 's/ [0-9]{4}-[0-9]{2}-[0-9]{2} / /' "$room/told"
  echo "status $status"
}
said=0
# says WHAT LINES CALL..: the call prints these lines and its status, the dates left out.
says() {
  local scene=$1 wanted=$2 found
  shift 2
  found=$(told "$@")
  [[ $found == "$wanted" ]] || fail "$scene: $*: $found"
  said=$((said + 1))
}
# The note of a call holds this text.
notes() {
  "$program" --root "$tree" -v "${@:2}" > "$room/out" 2> "$room/error" || true
  grep -qF -- "$1" "$room/error" || fail "${*:2} has no note '$1': $(< "$room/error")"
  said=$((said + 1))
}
is_clean() { [[ -z $(git status --porcelain) ]] || fail "$1: $(git status --porcelain)"; }
begins() { [[ $(head -n 1 "$tree/$1") == "$2" ]] || fail "$1 begins $(head -n 1 "$tree/$1")"; }

# Kills a call at its Nth renaming. The first two of a step are those of the entry and the head; a
# file that is made isn't renamed.
renames=rename,renameat,renameat2
kill_at() {
  local nth=$1
  shift
  {
    strace -f -qq -o "$room/trace" -e trace=$renames -e "inject=$renames:signal=KILL:when=$nth" \
      "$program" --root "$tree" "$@" > "$room/out" 2>&1
  } 2> /dev/null || true
  is_pending "$tree" || fail "$* isn't pending after a kill at renaming $nth"
}
three=(a.py 'x = 1\n' b.py 'y = 2\n' c.py 'z = 3\n')
mit='# SPDX-License-Identifier: MIT'

# The half-changed file that was edited stays, the other one goes back, and the history is free.
killed_and_edited() {
  local call
  repository "${three[@]}"
  kill_at 5 annotate -l MIT -r .
  begins a.py "$mit"
  begins b.py "$mit"
  echo '# mine' >> "$tree/a.py"
  for call in log 'show 1' undo redo 'revert 1' 'annotate -l ISC c.py' 'undo -n' 'forget --all' \
    recover; do
    # shellcheck disable=SC2086
    says 'killed and edited' $'reuse-undo: a.py: moved\nstatus 1' $call
  done
  notes 'reuse-undo recover --skip-moved' log
  says 'killed and edited' $'set back b.py\nskipped a.py\nstatus 0' recover --skip-moved
  [[ $(git status --porcelain) == ' M a.py' ]] || fail "the files: $(git status --porcelain)"
  says 'killed and edited' 'status 0' log
  says 'killed and edited' $'changed b.py\nchanged c.py\nstatus 0' annotate -l MIT -r .
  says 'killed and edited' $'undone b.py\nundone c.py\nstatus 0' undo
}

# git sets all files back by itself: the next call finds nothing that it has to set back.
killed_and_checked_out() {
  repository "${three[@]}"
  kill_at 5 annotate -l MIT -r .
  git checkout -q .
  says 'killed and checked out' \
    $'reuse-undo: note: step 1, which a stopped run had begun, was set back (0 files)\nstatus 0' log
  is_clean 'killed and checked out'
  says 'killed and checked out' $'changed a.py\nchanged b.py\nchanged c.py\nstatus 0' \
    annotate -l MIT -r .
}

# The step stays done, since no call can take it back: it is forgotten.
set_back_by_git() {
  repository "${three[@]}"
  says 'set back by git' $'changed a.py\nstatus 0' annotate -l MIT a.py
  git commit -qam One
  says 'set back by git' $'changed b.py\nchanged c.py\nstatus 0' annotate -l MIT -r .
  git checkout -q .
  says 'set back by git' $'reuse-undo: b.py: moved\nstatus 1' undo
  says 'set back by git' $'reuse-undo: b.py: moved\nstatus 1' revert 2
  says 'set back by git' $'nothing changed\nskipped b.py\nskipped c.py\nstatus 0' \
    revert --skip-moved 2
  says 'set back by git' $'1 annotate 1 done\n2 annotate 2 done\nstatus 0' log
  notes 'reuse-undo forget' undo
  notes 'reuse-undo forget' revert 2
  says 'set back by git' $'forgot 2\nstatus 0' forget 2
  is_clean 'set back by git'
  says 'set back by git' $'1 annotate 1 done\nstatus 0' log
  says 'set back by git' $'undone a.py\nstatus 0' undo
  git diff --quiet HEAD~1 -- a.py || fail 'set back by git: undo of the step below'
}

# On another branch the files of the step aren't there.
gone_on_a_branch() {
  repository "${three[@]}"
  git checkout -q -b other
  printf 'w = 4\n' > "$tree/d.py"
  git add -A
  git commit -qm Other
  says 'gone' $'changed d.py\nstatus 0' annotate -l MIT d.py
  git commit -qam Header
  git checkout -q main
  says 'gone' $'reuse-undo: d.py: moved\nstatus 1' undo
  notes 'this file is gone' undo
  notes 'reuse-undo forget' undo
  says 'gone' $'changed a.py\nstatus 0' annotate -l MIT a.py
  says 'gone' $'undone a.py\nstatus 0' undo
  says 'gone' $'forgot 1\nforgot 2\nstatus 0' forget 1 2
  is_clean 'gone'
  says 'gone' $'reuse-undo: nothing to undo\nstatus 1' undo
}

# The header that stands there is a later step's: it stays until that step is taken back.
below_a_later_step() {
  repository "${three[@]}"
  says 'below' $'changed a.py\nstatus 0' annotate -l MIT a.py
  says 'below' $'changed a.py\nstatus 0' revert 1
  says 'below' $'changed a.py\nstatus 0' annotate -l MIT a.py
  says 'below' $'reuse-undo: a.py: moved\nstatus 1' revert 1
  says 'below' $'nothing changed\nskipped a.py\nstatus 0' revert --skip-moved 1
  begins a.py "$mit"
  says 'below' $'1 annotate 1 done\n2 revert 1 done\n3 annotate 1 done\nstatus 0' log
  says 'below' $'undone a.py\nstatus 0' undo
  says 'below' $'undone a.py\nstatus 0' undo
  begins a.py "$mit"
  says 'below' $'changed a.py\nstatus 0' revert 1
  begins a.py 'x = 1'
  is_clean 'below'
}

# A file would be made again where a folder is: it is left, and the other file goes back.
folder_in_the_way() {
  repository "${three[@]}"
  make_dep5 "$tree"
  git add -A
  git commit -qm dep5
  kill_at 3 convert-dep5
  [[ -e $tree/REUSE.toml && ! -e $tree/.reuse/dep5 ]] || fail 'in the way: the files of the kill'
  mkdir "$tree/.reuse/dep5"
  echo mine > "$tree/.reuse/dep5/file"
  says 'in the way' $'reuse-undo: .reuse/dep5: moved\nstatus 1' log
  says 'in the way' $'reuse-undo: .reuse/dep5: moved\nstatus 1' recover
  says 'in the way' $'set back REUSE.toml\nskipped .reuse/dep5\nstatus 0' recover --skip-moved
  [[ ! -e $tree/REUSE.toml && $(< "$tree/.reuse/dep5/file") == mine ]] ||
    fail 'in the way: the files that are left'
  says 'in the way' 'status 0' log
}

# A head that was cut off: the note names the file, what is wrong and the way out.
damaged() {
  repository "${three[@]}"
  says 'damaged' $'changed a.py\nstatus 0' annotate -l MIT a.py
  truncate -s 10 "$tree/.reuse/undo/head.json"
  for call in log undo recover 'recover --skip-moved' 'forget --all' 'annotate -l MIT b.py'; do
    # shellcheck disable=SC2086
    says 'damaged' $'reuse-undo: .reuse/undo/head.json: bad journal\nstatus 1' $call
  done
  notes '.reuse/undo/head.json is torn' log
  notes 'delete the folder .reuse/undo' log
  rm -r "$tree/.reuse/undo"
  says 'damaged' $'changed b.py\nstatus 0' annotate -l MIT b.py
  begins a.py "$mit"
}

# What the scenes below take: a tree before this call; the call's words; and the places of its step
# at which something may be in the way, its paths and the folder above them.
step=(annotate -l MIT -y 2024 -r in)
stage() {
  words=("$1")
  paths=(in/a.py in/b.png.license)
  places=("${paths[@]}" in)
  files other.py 'x = 1\n' in/a.py 'x = 1\n' in/b.png 'picture'
  case $1 in
    annotate) words=("${step[@]}") ;;
    undo | revert) "$program" --root "$tree" "${step[@]}" > "$room/out" ;;&
    revert) words+=(1) ;;
    convert-dep5)
      make_dep5 "$tree"
      paths=(.reuse/dep5 REUSE.toml)
      places=("${paths[@]}")
      ;;
    download)
      words+=(--texts "$room/texts" ISC MIT)
      paths=(LICENSES/ISC.txt LICENSES/MIT.txt)
      places=("${paths[@]}" LICENSES)
      ;;
  esac
}

# Kills this call at the Nth such call of the system; status 1 if it ended before.
kill_at_call() {
  local status=0
  {
    strace -f -qq -o "$room/trace" -e "trace=$2" -e "inject=$2:signal=KILL:when=$3" \
      "$program" --root "$tree" "${words[@]}" > "$room/out" 2>&1
  } 2> /dev/null || status=$?
  ((status == 0 || status == 137)) || fail "$1, $2 $3: status $status: $(< "$room/out")"
  ((status == 137))
}

# Calls these functions on each tree that a kill leaves with a pending step, with what was killed as
# their argument. The tree before the call is `$room/before`, its log `$log`.
kills=0
at_each_kill() {
  local call system number way
  for call in annotate undo revert convert-dep5 download; do
    for system in rename link unlink; do
      for ((number = 1; ; number++)); do
        stage $call
        log=$(told log)
        rm -rf "$room/before" "$room/killed"
        cp -a "$tree" "$room/before"
        kill_at_call $call $system $number || break
        is_pending "$tree" || continue
        cp -a "$tree" "$room/killed"
        kills=$((kills + 1))
        for way; do $way "$call killed at $system $number"; done
      done
    done
  done
}
stand() {
  rm -rf "$tree"
  cp -a "$room/killed" "$tree"
}

# What another program puts in the place of what it moved away: a link leads there.
put_link() { ln -s "$room/moved" "$1"; }
put_pipe() { mkfifo "$1"; }
put_device() { mknod "$1" c 1 3; }
put_folder() {
  mkdir "$1"
  echo mine > "$1/file"
}
put_nothing() { :; }

# What there is of these files and folders, and which ones they are; some may not be there.
look() { { find "$@" -printf '%p %i %y %m %s %l %T@\n' 2> /dev/null || true; } | sort; }

# Whether the paths of the step that aren't at or beneath this place are as before the call
rest_is_back() {
  local path
  for path in "${paths[@]}"; do
    [[ $path/ != "$1"/* ]] || continue
    if [[ -e $room/before/$path ]]; then
      cmp -s "$room/before/$path" "$tree/$path" || return
    else
      [[ ! -e $tree/$path ]] || return
    fi
  done
}

# From here on recover leads out, perhaps only with --skip-moved; then the history is free. Another
# call is stopped by a link where a file is to be put back, and only recover names it as moved.
led_out=0
leads_out() {
  local scene=$1 place=$2 answer refused
  answer=$(told log)
  if [[ $answer != *'status 0' ]]; then
    [[ $answer == *': moved'* || $answer == *': interrupted'* ]] || fail "$scene: log: $answer"
    answer=$(told recover)
    refused=$(sed -nE '1s/^reuse-undo: (.*): moved$/\1/p' <<< "$answer")
    [[ $refused/ == "$place"/* ]] || fail "$scene: recover: $answer"
    answer=$(told recover --skip-moved)
    [[ $answer == *"skipped $refused"$'\n'*'status 0' ]] ||
      fail "$scene: recover --skip-moved: $answer"
  fi
  [[ $(told log) == "$log" ]] || fail "$scene: the log afterwards: $(< "$room/told")"
  rest_is_back "$place" || fail "$scene: another path of the step isn't as before"
  says "$scene" $'changed other.py\nstatus 0' annotate -l ISC other.py
  led_out=$((led_out + 1))
}

# Something else takes the place of each path, and of the folder above.
something_in_the_way() {
  local scene kind place looks
  for place in "${places[@]}"; do
    for kind in "${kinds[@]}"; do
      stand
      scene="$1, $kind at $place"
      rm -rf "$room/moved"
      [[ ! -e $tree/$place ]] || mv "$tree/$place" "$room/moved"
      [[ -d $(dirname "$tree/$place") ]] || continue
      "put_$kind" "$tree/$place"
      looks=("$room/moved")
      case $kind in
        link | pipe | device) looks+=("$tree/$place") ;;
        folder) looks+=("$tree/$place/file") ;;
      esac
      look "${looks[@]}" > "$room/wanted"
      leads_out "$scene" "$place"
      look "${looks[@]}" | cmp -s - "$room/wanted" || fail "$scene: that doesn't stay"
    done
  done
}

# The checksums of all files but the journal's
sums() {
  (cd "$1" && find . -path ./.reuse/undo -prune -o -type f -print0 | sort -z | xargs -0 sha256sum)
}

# While something can't be written, as a system's text says, each call says so or has nothing to do
# there; this function makes it writable, and then the next call finds the tree before the call.
waited=0
waits_for() {
  local scene=$1 reason=$2 call
  for call in log recover 'recover --skip-moved'; do
    # shellcheck disable=SC2086
    told -v $call > "$room/said"
    if [[ $(tail -n 1 "$room/said") != 'status 0' ]]; then
      if ! grep -qx 'reuse-undo: interrupted' "$room/said" ||
        ! grep -qE "^reuse-undo: note: can't (write|remove) .*: $reason" "$room/said"; then
        "${@:3}"
        fail "$scene: $call: $(< "$room/said")"
      fi
      waited=$((waited + 1))
    fi
  done
  "${@:3}"
  [[ $(told log) == *'status 0' ]] || fail "$scene: once it is writable: $(< "$room/told")"
  [[ $(told log) == "$log" ]] || fail "$scene: the log afterwards: $(< "$room/told")"
  [[ $(sums "$tree") == "$(sums "$room/before")" ]] || fail "$scene: the tree isn't as before"
}

# A path is immutable, or the folder in which it is.
something_immutable() {
  local place
  for place in "${paths[@]}" "$(dirname "${paths[0]}")"; do
    stand
    [[ -e $tree/$place ]] || continue
    chattr +i "$tree/$place"
    waits_for "$1, $place is immutable" 'Operation not permitted' chattr -i "$tree/$place"
  done
}

# The whole tree is on a mount that became read-only, or the folder of a path is.
something_read_only() {
  local place mount
  for place in . "$(dirname "${paths[0]}")"; do
    stand
    [[ -d $tree/$place ]] || continue
    mount=$tree/$place
    rm -rf "$room/aside"
    cp -a "$mount" "$room/aside"
    mount -t tmpfs tmpfs "$mount"
    cp -a "$room/aside/." "$mount"
    mount -o remount,ro "$mount"
    waits_for "$1, the mount $place is read-only" 'Read-only file system' \
      mount -o remount,rw "$mount"
    umount "$mount"
  done
}

scenes=(killed_and_edited killed_and_checked_out set_back_by_git gone_on_a_branch
  below_a_later_step folder_in_the_way damaged)
for scene in "${scenes[@]}"; do
  $scene
done
echo "$said calls: each of ${#scenes[@]} scenes has a way out, and git finds no other change"

mkdir "$room/texts"
for id in ISC MIT; do echo 'Permission is granted' > "$room/texts/$id.txt"; done
kinds=(link pipe folder nothing) ways=(something_in_the_way) untried=
if ((EUID == 0)); then kinds+=(device); else untried+='; no device, which only root makes'; fi
if touch "$room/fixed" && chattr +i "$room/fixed" 2> "$room/error"; then
  chattr -i "$room/fixed"
  ways+=(something_immutable)
else
  untried+='; no immutable file, which only root makes on some disks'
fi
if mkdir "$room/mount" && mount -t tmpfs tmpfs "$room/mount" 2> "$room/error"; then
  umount "$room/mount"
  ways+=(something_read_only)
else
  untried+='; no mount, which only root makes'
fi
at_each_kill "${ways[@]}"
echo "$kills killed calls: $led_out ways out with something in the way; $waited calls that say" \
  "what can't be written, and once it is writable all goes back$untried"
