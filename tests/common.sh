# What the scripts that run the program share: `program`, which the first argument names; `room`, a
# folder that is removed at the end; and some functions.
program=$(realpath "${1:?"usage: $0 PROGRAM"}")
room=$(mktemp -d "/dev/shm/$(basename "$0" .sh).XXXXXX" 2> /dev/null || mktemp -d)
trap 'rm -rf "$room"' EXIT

# A dep5 file in a tree
make_dep5() {
  mkdir -p "$1/.reuse"
  printf '%s\n' 'Format: https://www.debian.org/doc/packaging-manuals/copyright-format/1.0/' '' \
    'Files: *.json' \
    'Copyright: 2020 Jane Doe' 'License: MIT' > "$1/.reuse/dep5"
}

# Makes `$tree` anew of files, each by its path and its text with escapes.
files() {
  rm -rf "$tree"
  mkdir "$tree"
  while (($#)); do
    mkdir -p "$(dirname "$tree/$1")"
    printf %b "$2" > "$tree/$1"
    shift 2
  done
}

# The log, and one checksum over all names, bits and bytes of a tree outside of the journal,
# whosever it is
state_of() {
  "$program" --root "$1" --trust-journal log || return 1
  tar -C "$1" --sort=name --mtime=@0 --exclude=./.reuse/undo -cf - . | sha256sum
}

# Rewrites a tree's journal as version 1.0 wrote it: in format 1, without the digests of the files
as_format_1() {
  sed -i -E 's/"(after|before)":"[0-9a-f]{64}",//g; s/"format":2/"format":1/' \
    "$1"/.reuse/undo/*.json
}

# Whether the journal of a tree names a pending step
is_pending() {
  grep -q '"pending":{' "$1/.reuse/undo/head.json" 2> /dev/null
}

# What a call on `$tree` prints, and its status
answer_of() {
  local status=0
  "$program" --root "$tree" "$@" > "$room/answer" 2>&1 || status=$?
  cat "$room/answer"
  echo "status $status"
}

# Fails if a text isn't the one that is expected; the third argument says of what.
is() { [[ $1 == "$2" ]] || fail "$3: $1"; }

# Makes a call in the background; what it prints goes into files of this name.
in_background() {
  local name=$1
  shift
  {
    found=0
    "$program" "$@" > "$room/$name.out" 2> "$room/$name.error" || found=$?
    echo $found > "$room/$name.status"
  } &
}

# What a refused call prints while another run works
busy='reuse-undo: in use by another run'

# What came of such a call: done, idle (there was nothing to undo or redo), busy (it was refused as
# in use, and printed nothing else) or moved
outcome() {
  local status error
  status=$(< "$room/$1.status")
  error=$(< "$room/$1.error")
  case "$status:$error" in
    0:) echo done ;;
    "1:$busy") [[ ! -s $room/$1.out ]] && echo busy ;;
    '1:reuse-undo: nothing to undo' | '1:reuse-undo: nothing to redo') echo idle ;;
    1:*': moved') echo moved ;;
    *) return 1 ;;
  esac
}

# Makes git act alike everywhere: as Jane, on a branch main, by no settings of this machine.
use_git() {
  wants git git
  export GIT_CONFIG_GLOBAL=/dev/null GIT_CONFIG_NOSYSTEM=1
  git() {
    command git -c user.name=Jane -c user.email=jane@example.org -c protocol.file.allow=always \
      -c init.defaultBranch=main "$@"
  }
}

# Reports a fault, and keeps the folder.
fail() {
  trap - EXIT
  echo "fault: $1; kept in $room" >&2
  exit 1
}

# Ends a script that can't be run here, for this reason: tests/all.sh counts status 77 as skipped,
# and prints the last line.
skip() {
  echo "$1" >&2
  exit 77
}

# Skips a script where a command isn't there, and names Debian's package for it.
wants() { command -v "$1" > /dev/null || skip "$1 isn't there: apt-get install $2"; }

# The words of help: the subcommands; the options of a subcommand, or, without one, those before it;
# the names that an option of annotate takes
help_subcommands() {
  "$program" --help | sed -nE '/^Commands:/,/^$/s/^  ([a-z][a-z0-9-]*) .*/\1/p'
}
help_options() {
  "$program" "$@" --help | sed -nE '/^Options:/,/^[^ ]*$/p' | sed -nE \
    -e 's/^ +(-[A-Za-z]), (--[a-z-]+).*/\1\n\2/p' \
    -e 's/^ +(--[a-z-]+).*\[alias(es)?: (--[a-z-]+).*/\1\n\3/p' -e 's/^ +(--[a-z-]+).*/\1/p'
}
help_values() {
  "$program" annotate --help | sed -nE "s/.*--$1 .*\[possible values: ([^]]*)\].*/\1/p" |
    sed 's/, /\n/g'
}
