#!/usr/bin/env bash
# Annotates files whose lengths, before or after, stand at and round the bounds of buffers, from no
# byte to the longest file: with a first line that stays in front, an old header block, and text
# behind it, where each of the three in turn is the long one, and with text alone. Each file must
# then hold just the front part, the new block and the rest, which python3 puts together; undo must
# give the first bytes, and redo the second. One byte more than the longest file, before or after,
# is refused, and changes nothing. A licence text and a list of files have their bounds, too. Ends
# with status 1 at the first fault.
# usage: tests/large_files.sh PROGRAM
# The tags below are data: REUSE-IgnoreStart
set -euo pipefail
. "$(dirname "$0")/common.sh"
wants python3 python3

python3 - "$room" << 'PYTHON'
import os, sys

room = sys.argv[1]
LONGEST = 16_777_216
NOTICE = b'# SPDX-FileCopyrightText: 2001 Old Holder\n'
NEW = b'# SPDX-FileCopyrightText: 2024 Jane Doe\n#\n# SPDX-License-Identifier: MIT\n'
FIRST = b'#!/usr/bin/python3\n'

bounds = [4_096, 8_192, 16_384, 32_768, 65_536, 131_072, 1_048_576, 8_388_608]
lengths = [0, 1, 2, LONGEST - 1, LONGEST]
lengths += [bound + more for bound in bounds for more in (-1, 0, 1)]
# A step that has more of the longest blocks is too large.
lengths_of_blocks = [length for length in lengths if length in (LONGEST - 1, LONGEST) or
                     length < 8_000_000]

# Lines, no two of which are alike: those of a program, and those of a comment without a tag
TEXT = b''.join(b'x%d = 1\n' % number for number in range(1_400_000))
COMMENT = b''.join(b'# text %d\n' % number for number in range(1_200_000))
assert min(len(TEXT), len(COMMENT)) > LONGEST


def comment(length):
    """So many bytes of a comment, in whole lines: at least eight."""
    end = COMMENT.rindex(b'\n', 0, length - 4) + 1 if length > 16 else 0
    return COMMENT[:end] + b'# ' + b'y' * (length - end - 3) + b'\n'


def parts_of(kind, length):
    """Front, old block, new block and rest: together so long before, or after."""
    when, long = kind
    front, free, rest = FIRST, b'', b'x\n'
    if long == 'text':
        front, old, new = b'', b'', NEW + b'\n'
    else:
        old, new = NOTICE, NOTICE + NEW
    if long == 'block':
        old, new = old + b'#\n', new + b'#\n'
    block = new if when == 'after' else old
    left = length - len(front) - len(block) - (0 if long == 'text' else len(rest))
    if long == 'text' and kind[0] == 'before' and length == 0:
        return b'', b'', NEW, b''
    if left < 1 or (long == 'block' and left < 8):
        return None
    if long == 'front':
        front = b'#!/' + b'y' * (left + len(front) - 4) + b'\n'
    elif long == 'block':
        free = comment(left)
    elif long == 'rest':
        rest = TEXT[:left + len(rest)]
    else:
        rest = TEXT[:left]
    return front, old + free, new + free, rest


def write(tree, name, parts):
    with open(os.path.join(room, tree, name), 'wb') as file:
        file.write(b''.join(parts))


for tree in ('before', 'after', 'long'):
    os.mkdir(os.path.join(room, tree))
for when in ('before', 'after'):
    for long in ('front', 'block', 'rest', 'text'):
        for length in lengths_of_blocks if long == 'block' else lengths:
            parts = parts_of((when, long), length)
            if parts is None:
                continue
            front, old, new, rest = parts
            made = len(front + new + rest)
            if made > LONGEST:
                continue
            assert length == (made if when == 'after' else len(front + old + rest))
            name = f'{long}_of_{length}_{when}.py'
            write('before', name, (front, old, rest))
            write('after', name, (front, new, rest))
        front, old, new, rest = parts_of((when, long), LONGEST + 1)
        write('long', f'{long}_too_long_{when}.py', (front, old, rest))
PYTHON

# The call ends well, and leaves just the files of this tree.
tree=$room/tree
leaves() {
  local wanted=$1
  shift
  "$program" --root "$tree" "$@" > "$room/out" 2>&1 ||
    fail "$* is refused: $(tail -n 1 "$room/out")"
  diff -r -x .reuse "$room/$wanted" "$tree" > "$room/out" ||
    fail "after $*: $(head -n 1 "$room/out")"
}
cp -r "$room/before" "$tree"
leaves after annotate -c "Jane Doe" -l MIT -y 2024 -r .
leaves before undo
leaves after redo
leaves before revert 1

# Batches: up to 256 files are written at a time, and no more once those that were read have 8 MiB.
# A tree of so many files, of which the first has so many bytes, before a call or after it.
batches=0
batch() {
  local file number
  rm -rf "$tree" "$room/first" "$room/second"
  mkdir "$room/first" "$room/second"
  head -c "$2" < <(seq 3000000) > "$room/first/0.py"
  for ((number = 1; number < $1; number++)); do echo "x = $number" > "$room/first/$number.py"; done
  for file in "$room/first"/*; do
    printf '# SPDX-License-Identifier: MIT\n\n' | cat - "$file" > "$room/second/${file##*/}"
  done
  cp -r "$room/first" "$tree"
  leaves second annotate -l MIT -r .
  leaves first undo
  leaves second redo
  batches=$((batches + 1))
}
for count in 255 256 257 511 512 513; do batch $count 1; done
header=32
for bytes in 8388607 8388608 8388609; do
  batch 3 $bytes
  batch 3 $((bytes - header))
done

# One byte too many: refused, and nothing is written.
for file in "$room/long"/*; do
  rm -rf "$tree"
  mkdir "$tree"
  cp "$file" "$tree"
  name=$(basename "$file") status=0
  "$program" --root "$tree" annotate -c "Jane Doe" -l MIT -y 2024 "$name" > "$room/out" 2>&1 ||
    status=$?
  [[ $status == 1 && $(< "$room/out") =~ "reuse-undo: $name: "(result )?too\ long ]] ||
    fail "$name: status $status, $(head -n 1 "$room/out")"
  cmp "$file" "$tree/$name" || fail "$name is changed"
  [[ ! -e $tree/.reuse ]] || fail "$name: a journal is begun"
done

# Licence texts: all bytes of the longest one are written, and one more is refused.
for length in 0 1 8191 8192 8193 131071 131072 131073 16777215 16777216 16777217; do
  rm -rf "$tree" "$room/texts"
  mkdir "$tree" "$room/texts"
  head -c "$length" < <(seq 3000000) > "$room/texts/MIT.txt"
  status=0
  "$program" --root "$tree" download --texts "$room/texts" MIT > "$room/out" 2>&1 || status=$?
  if ((length > 16777216)); then
    [[ $status == 1 && $(< "$room/out") == 'reuse-undo: LICENSES/MIT.txt: too long' ]] ||
      fail "a text of $length bytes: status $status, $(head -n 1 "$room/out")"
    [[ ! -e $tree/LICENSES && ! -e $tree/.reuse ]] || fail "a text of $length bytes is written"
  else
    ((status == 0)) || fail "a text of $length bytes: $(head -n 1 "$room/out")"
    cmp "$room/texts/MIT.txt" "$tree/LICENSES/MIT.txt" || fail "a text of $length bytes"
  fi
done

# Lists of files: the last path of each counts, whichever byte of a buffer it ends at, from a file
# and from standard input, which gives fewer bytes at a time than are asked for.
rm -rf "$tree"
mkdir "$tree"
lists=0
for length in 4 4095 4096 4097 8191 8192 8193 65535 65536 65537 131072 1048577 268435455 268435456 \
  268435457; do
  { head -c $((length - 4)) /dev/zero && printf a.py; } > "$room/list"
  for from in "$room/list" - pipe; do
    echo x > "$tree/a.py"
    call=(annotate -l MIT -r . --files-from "${from/pipe/-}") status=0
    case $from in
      pipe) cat "$room/list" | "$program" --root "$tree" "${call[@]}" > "$room/out" 2>&1 ;;
      *) "$program" --root "$tree" "${call[@]}" < "$room/list" > "$room/out" 2>&1 ;;
    esac || status=$?
    if ((length > 268435456)); then
      ((status == 2)) && [[ $(< "$room/out") == *"cannot be read"* ]]
    else
      ((status == 0)) && [[ $(head -n 1 "$tree/a.py") == '# SPDX-License-Identifier: MIT' ]]
    fi || fail "a list of $length bytes, $from: status $status, $(head -n 1 "$room/out")"
    lists=$((lists + 1))
  done
done

count=$(find "$room/before" -type f | wc -l)
echo "$count files, of 0 to 16,777,216 bytes before or after: annotate, undo, redo and revert" \
  "leave the bytes that are expected; $(find "$room/long" -type f | wc -l) of one byte more are" \
  "refused, $batches trees are written at the bounds of batches, and $lists lists are read to" \
  "their last byte"
