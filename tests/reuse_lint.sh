#!/usr/bin/env bash
# Debian's reuse calls this repository compliant. It knows no REUSE.toml, so it lints a copy with
# the same said as a dep5, and the program's convert-dep5 makes just our REUSE.toml of that dep5.
# The licence's text is what the program's download copies from Debian's. As later versions of reuse
# read files whole, no file may hold a licence tag outside of what is marked to be ignored. Ends
# with status 1 at the first fault.
# usage: tests/reuse_lint.sh PROGRAM
set -euo pipefail
. "$(dirname "$0")/common.sh"
wants reuse reuse
wants git git
top=$(realpath "$(dirname "$0")/..")
copy=$room/copy
mkdir -p "$copy" "$room/texts"

# What the program was built from, without what rt makes
tar -C "$top" --exclude=./.git --exclude=out --exclude=./.reuse/undo -cf - . | tar -C "$copy" -xf -
git -C "$copy" init -q
mkdir -p "$copy/.reuse"
cat > "$copy/.reuse/dep5" << DEP5
Format: https://www.debian.org/doc/packaging-manuals/copyright-format/1.0/
Upstream-Name: reuse-undo

Files: *
Copyright: 2026 The reuse-undo authors
License: Apache-2.0
DEP5
rm "$copy/REUSE.toml"

# The tag in two parts, so that these lines hold none
ignored='REUSE-Ignore' tag='SPDX-License-Identifier'":[ \t]"
open_tags=$(cd "$copy" && find . -type f -not -path './.git/*' -not -path './.reuse/*' \
  -not -path './LICENSES/*' \
  -exec awk -v "start=${ignored}Start" -v "end=${ignored}End" -v "tag=$tag" '
  FNR == 1 { hidden = 0 }
  index($0, start) { hidden = 1 }
  index($0, end) { hidden = 0 }
  !hidden && $0 ~ tag { print FILENAME ":" FNR }' {} +)
[[ -z $open_tags ]] ||
  fail "write ${ignored}Start in a comment above the tags of these files: $open_tags"
echo "no file has a licence tag of its own"

(cd "$copy" && LC_ALL=C.UTF-8 reuse lint) > "$room/out" 2> "$room/error" ||
  fail "reuse lint: $(cat "$room/out" "$room/error")"
[[ ! -s $room/error ]] || fail "reuse lint tells: $(cat "$room/error")"
grep -q '^Congratulations!' "$room/out" || fail "reuse lint: $(cat "$room/out")"
grep -E '^\* (Used licenses|Files with)' "$room/out"

"$program" --root "$copy" convert-dep5 > "$room/out" || fail 'the dep5 is not converted'
[[ $(< "$room/out") == $'changed .reuse/dep5\nchanged REUSE.toml' ]] ||
  fail "convert-dep5 tells: $(cat "$room/out")"
cmp "$copy/REUSE.toml" "$top/REUSE.toml" || fail 'convert-dep5 gives another REUSE.toml'
[[ $(grep -c '^\[\[annotations\]\]' "$top/REUSE.toml") == 1 ]] ||
  fail 'REUSE.toml has not one table'
echo "convert-dep5 gives the REUSE.toml"

cp /usr/share/common-licenses/Apache-2.0 "$room/texts/Apache-2.0.txt"
mkdir "$room/tree"
"$program" --root "$room/tree" download --texts "$room/texts" Apache-2.0 > "$room/out" ||
  fail 'the licence is not copied'
cmp "$room/tree/LICENSES/Apache-2.0.txt" "$top/LICENSES/Apache-2.0.txt" ||
  fail 'download gives another text'
echo "download gives the licence's text"
