#!/usr/bin/env bash
# Amends up to 2,000 real headers, in files of Debian's packages that lie on this machine: headers
# of the kernel and of C++, files of autotools, Perl and JavaScript. Four tasks: another licence,
# another name of a holder, years up to one year, a holder removed. Of each:
# - what reuse spdx reads before and behind it (or, if reuse isn't there, a plain reading) differs
#   in what was asked for alone, and in the changed files alone;
# - a file in which the old value still stands is one that amend says it leaves;
# - one undo gives the tree back byte for byte.
# With --everywhere, if the program has it, no old value stands anywhere. A file of which nothing
# would be left is refused, and left out. Prints how many files changed and how many are left.
# usage: tests/real_headers.sh PROGRAM
# The tags below are data: REUSE-IgnoreStart
set -euo pipefail
. "$(dirname "$0")/common.sh"
wants python3 python3
judge=$(realpath "$(dirname "$0")")/real_headers/judge.py
export PYTHONDONTWRITEBYTECODE=1 LC_ALL=C.UTF-8
plain=$room/plain
tree=$room/tree
least=500

# The files of the packages that hold a tag or a notice
sources() (
  cd /usr
  {
    find include/{linux,asm-generic,rdma,sound,misc,mtd,scsi,video,xen} -name '*.h' -type f
    find include/c++ share/{automake*,autoconf,aclocal*} -type f
    find share/{perl,perl5} -name '*.p[lm]' -type f
    find share/{javascript,nodejs} -type f -name '*.js' ! -name '*.min.js'
  } 2> /dev/null | sort | tr '\n' '\0' |
    xargs -0 grep -lIE 'SPDX-License-Identifier|Copyright|©' 2> /dev/null | head -n 2000
)

# One call of amend on a copy of the tree: what it is asked for, the old value and the new one.
amends() {
  local task=$1 old=$2 new=$3 excluded=() path
  shift 3
  rm -rf "$tree"
  cp -r "$plain" "$tree"
  "$program" --root "$tree" amend "$@" -r . --dry-run > "$room/lines" 2> "$room/refused" || true
  while read -r path; do
    excluded+=(--exclude "$path")
  done < <(sed -n 's/^reuse-undo: \(.*\): nothing left$/\1/p' "$room/refused")
  "$program" --root "$tree" amend "$@" -r . "${excluded[@]}" > "$room/lines" 2> "$room/errors" ||
    fail "$*: $(< "$room/errors")"
  python3 "$judge" compare "$room/before" "$tree" "$room/lines" "$task" "$old" "$new" \
    $((${#excluded[@]} / 2)) > "$room/told" || fail "$*: $(< "$room/told")"
  echo "amend $*: $(< "$room/told")"
  "$program" --root "$tree" undo > "$room/out" || fail "the undo of amend $*"
  diff -r -x .reuse "$plain" "$tree" > "$room/out" || fail "amend $* isn't undone: $(< "$room/out")"
}

mkdir "$plain"
sources > "$room/files" || true
found=$(wc -l < "$room/files")
((found >= least)) ||
  skip "$found files with headers: apt-get install linux-libc-dev libstdc++-12-dev automake perl"
tar -C /usr -cf - -T "$room/files" | tar -C "$plain" -xf -
chmod -R u+w "$plain"
python3 "$judge" read "$plain" > "$room/before"
reader='reuse spdx'
command -v reuse > /dev/null || reader='a plain reading'
echo "$found files, read by $reader"

fsf='Free Software Foundation, Inc.' redhat='Red Hat, Inc.'
amends licence GPL-2.0 GPL-2.0-only --replace-license GPL-2.0 GPL-2.0-only
amends holder "$fsf" 'FSF' --replace-holder "$fsf" 'FSF'
amends years '' 2026 --until 2026
amends removed "$redhat" '' --remove-holder "$redhat"
if help_options amend | grep -qx -- --everywhere; then
  amends licence-everywhere GPL-2.0 GPL-2.0-only --replace-license GPL-2.0 GPL-2.0-only --everywhere
  amends holder-everywhere "$fsf" 'FSF' --replace-holder "$fsf" 'FSF' --everywhere
  amends removed-everywhere "$redhat" '' --remove-holder "$redhat" --everywhere
fi
