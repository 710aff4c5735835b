#!/usr/bin/env bash
# Compares dry runs with the calls themselves: a dry run writes nothing, ends with the status of the
# call, tells the call's first refusal first, and names the paths that the call changes. The diff of
# one, applied to a copy by `git apply` and by `patch -p1`, gives byte for byte the tree of the
# call: for the examples of docs/REFERENCE.md, for lists of files and globs of each kind, and for
# random trees, with real files of /usr among them. With --json each line and each refusal is an
# object. With --check the status is 0 exactly if the call is accepted and changes nothing, and so
# it is with --exit-non-zero-on-change. Prints what was compared; ends with status 1 at the first
# fault.
# usage: tests/dry_run.sh PROGRAM [ROUNDS]      (300 rounds by default)
# The tags below are data: REUSE-IgnoreStart
set -euo pipefail
. "$(dirname "$0")/common.sh"
wants git git
wants patch patch
wants python3 python3
rounds=${2:-300}
here=$(realpath "$(dirname "$0")")
tree=$room/tree

# One checksum over all names, bits, times and bytes of a tree, the journal too
whole() { tar -C "$tree" --sort=name -cf - . | sha256sum; }

# Whether two trees have the same files, apart from empty folders
alike() {
  diff -r "$1" "$2" > "$room/differ" 2>&1 && return
  # What is only on one side must be folders without files.
  grep -vE '^Only in ' "$room/differ" && return 1
  local line path
  while IFS= read -r line; do
    path=$(sed -E 's/^Only in (.*): (.*)$/\1\/\2/' <<< "$line")
    [[ -d $path && -z $(find "$path" ! -type d -print -quit) ]] || return 1
  done < "$room/differ"
}

# A call on `$tree` as JSON, and with the statuses for a check, which are 1 where the call would be
# refused or change something
mkdir "$room/json"
look_again() {
  local status=0 wanted=$1 changes=$1 json=$room/json/$compared
  grep -qE '^would (change|leave) ' "$room/looked" && wanted=1
  grep -q '^would change ' "$room/looked" && changes=1
  "$program" --root "$tree" "${call[@]}" --check < "$input" > "$json.lines" \
    2> "$json.refusals" || status=$?
  [[ $status == "$wanted" ]] || fail "${call[*]} --check: status $status"
  cmp -s "$json.lines" "$room/looked" || fail "${call[*]} --check: other lines than --dry-run"
  status=0
  "$program" --root "$tree" "${call[@]}" --check --json < "$input" > "$json" \
    2> "$room/error" || status=$?
  [[ $status == "$wanted" ]] || fail "${call[*]} --check --json: status $status"
  cmp -s "$json.refusals" "$room/error" || fail "${call[*]} --json changes what is refused"
  case ${call[0]} in
    annotate | amend | convert-dep5)
      rm -rf "$room/made"
      cp -a "$tree" "$room/made"
      status=0
      "$program" --root "$room/made" "${call[@]}" --exit-non-zero-on-change < "$input" \
        > "$room/out" 2>&1 || status=$?
      [[ $status == "$changes" ]] || fail "${call[*]} --exit-non-zero-on-change: status $status"
      ;;
  esac
}

compared=0 applied=0 refused=0 amended=0 leaving=0
# What a call reads on standard input
input=/dev/null
# A call on `$tree`: looked at, made on a copy, and, where it is accepted, made from its diff on two
# more. The call stands in `call`.
compare() {
  local before status=0 looked=0
  before=$(whole)
  "$program" --root "$tree" "${call[@]}" -n --diff < "$input" > "$room/diff" \
    2> "$room/looked_error" || looked=$?
  "$program" --root "$tree" "${call[@]}" -n < "$input" > "$room/looked" 2> "$room/error" ||
    [[ $looked == "$?" ]] || fail "${call[*]}: --diff changes the status"
  [[ $(whole) == "$before" ]] || fail "${call[*]}: a dry run writes"
  cmp -s "$room/error" "$room/looked_error" || fail "${call[*]}: --diff changes what is refused"
  compared=$((compared + 1))
  look_again $looked
  [[ $(whole) == "$before" ]] || fail "${call[*]}: a check writes"
  rm -rf "$room/made"
  cp -a "$tree" "$room/made"
  "$program" --root "$room/made" "${call[@]}" < "$input" > "$room/out" 2> "$room/error" ||
    status=$?
  [[ $looked == "$status" ]] || fail "${call[*]}: status $status, and of a dry run $looked"
  ((status < 2)) || fail "${call[*]}: $(< "$room/error")"
  if ((status)); then
    [[ $(head -n 1 "$room/looked_error") == "$(< "$room/error")" ]] ||
      fail "${call[*]}: refused otherwise: $(< "$room/error")"
    cmp -s "$room/diff" "$room/looked" || fail "${call[*]}: the diff of a call that is refused"
    refused=$((refused + 1))
    return
  fi
  diff <(sed -nE 's/^(changed|undone|redone) //p' "$room/out" | sort) \
    <(sed -n 's/^would change //p' "$room/looked" | sort) > "$room/differ" \
    || fail "${call[*]}: other paths change: $(< "$room/differ")"
  diff <(sed -n 's/^left //p' "$room/out") <(sed -n 's/^would leave //p' "$room/looked") \
    > "$room/differ" || fail "${call[*]}: other paths are left: $(< "$room/differ")"
  ! grep -q '^left ' "$room/out" || leaving=$((leaving + 1))
  grep -q '^diff --git ' "$room/diff" || return 0
  rm -rf "$room/made/.reuse/undo"
  local tool
  for tool in git patch; do
    # patch drops the spaces at the end of a path, in a diff by git itself too.
    [[ $tool == git ]] || ! grep -qE $'^(---|\\+\\+\\+) [ab]/.* \t$' "$room/diff" || continue
    rm -rf "$room/$tool"
    cp -a "$tree" "$room/$tool"
    rm -rf "$room/$tool/.reuse/undo"
    case $tool in
      git)
        (cd "$room/git" && GIT_DIR=/nowhere git apply --whitespace=nowarn "$room/diff") \
          > "$room/out" 2>&1
        ;;
      patch)
        patch -d "$room/patch" -p1 -s -f --no-backup-if-mismatch < "$room/diff" > "$room/out" 2>&1
        ;;
    esac || fail "${call[*]}: $tool refuses the diff: $(< "$room/out")"
    alike "$room/made" "$room/$tool" ||
      fail "${call[*]}: $tool makes another tree: $(< "$room/differ")"
  done
  applied=$((applied + 1))
  [[ ${call[0]} != amend ]] || amended=$((amended + 1))
}

# The examples of docs/REFERENCE.md, on a tree that has what they name
example_tree() {
  files a.py 'print(1)\n' script '#!/bin/sh\necho\n' main.c 'int main;' src/b.py 'x = 1\r\n' \
    src/c.h 'int y;\n' src/odd 'x\n' data.csv '1,2\n' node_modules/m.js 'x;\n' lib.min.js 'x;\n'
  make_dep5 "$tree"
  mkdir -p "$room/texts"
  echo 'text of MIT' > "$room/texts/MIT.txt"
  printf 'text without an end' > "$room/texts/Apache-2.0.txt"
  echo 'text of GPL' > "$room/texts/GPL-2.0-only.txt"
  printf 'A note of\nACME\n' > "$room/texts/notice.txt"
}
# The same with what those of amend change, in headers and in a REUSE.toml
amended_tree() {
  example_tree
  rm -r "$tree/.reuse"
  local path end header
  for path in a.py script src/b.py; do
    end='\n'
    [[ $path != src/b.py ]] || end='\r\n'
    printf -v header "# %s$end" 'SPDX-FileCopyrightText: 2019 Jane Doe' 'Copyright 2020 John Roe' \
      'SPDX-FileContributor: Joe Bloggs' '' 'A note of ACME' '' 'SPDX-License-Identifier: MIT' \
      'SPDX-License-Identifier: GPL-2.0'
    printf '%s\nx = 1' "$header" > "$tree/$path"
  done
  printf '%s\n' 'version = 1' '[[annotations]]' 'path = "*.csv"' \
    'SPDX-FileCopyrightText = ["2019 Jane Doe", "2020 John Roe"]' \
    'SPDX-License-Identifier = "GPL-2.0 OR MIT"' > "$tree/REUSE.toml"
}
mapfile -t examples < <(
  sed -nE "s/^    reuse-undo ((annotate|amend|convert-dep5|download).*)/\1/p" \
    "$here/../docs/REFERENCE.md" | sed -E 's/ +#.*//; s/ +(--dry-run|-n)( --diff)?( |$)/\3/' |
    grep -vE -e '--files-from' | sort -u
)
((${#examples[@]} >= 19)) || fail "docs/REFERENCE.md has ${#examples[@]} examples"
for example in "${examples[@]}"; do
  if [[ $example == amend* ]]; then amended_tree; else example_tree; fi
  example=${example// notice.txt / $room/texts/notice.txt }
  eval "call=(${example//~\/license-list-data\/text/$room/texts})"
  call=("${call[@]//#texts/$room/texts}")
  compare
  "$program" --root "$tree" "${call[@]}" > "$room/out" 2> "$room/error" || continue
  for call in undo 'revert 1' 'revert 1 --skip-moved'; do
    read -ra call <<< "$call"
    compare
  done
  "$program" --root "$tree" undo > "$room/out"
  call=(redo)
  compare
done
in_examples=$applied
((leaving >= 1)) || fail 'no example leaves a file'
((amended >= 7)) || fail "$amended examples of amend change something"

# Lists of files and globs. The call must change just the files that a dry run names, and some do.
picked_files() {
  files a.py 'x = 1\n' b.py 'x = 2\n' script '#!/bin/sh\necho\n' main.c 'int main;' \
    src/b.py 'x = 1\r\n' src/c.h 'int y;\n' src/deep/d.py '# SPDX-License-Identifier: MIT\n\nx\n' \
    src/p.png '\0211' node_modules/m.js 'x;\n' lib.min.js 'x;\n' LICENSES/MIT.txt 'text\n'
  printf 'x\n' > "$tree/"$'line\nend.py'
}
picks=0
# A call with these options that pick files
picks() {
  local from
  picks=$((picks + 1))
  for from in '' "$room/list" -; do
    picked_files
    call=(annotate -c 'Jane Doe' -y 2024 -l MIT -r --fallback-dot-license "$@")
    [[ -z $from ]] || call+=(--files-from "$from")
    [[ $from != - ]] || input=$room/list
    call+=(.)
    compare
    input=/dev/null
  done
}
for list in '' 'a.py\nsrc/b.py\n' './a.py\r\nsrc/./c.h\r\nmain.c' 'src/b.py\0line\nend.py\0' \
  'none.py\nsrc\n../a.py\n/a.py\nLICENSES/MIT.txt\nsrc/p.png\n' 'src/deep/d.py\nscript\n'; do
  # shellcheck disable=SC2059
  printf "$list" > "$room/list"
  picks
  for glob in src src/ ./src 'src/**' '**/deep' '**.py' '*.py' '**' 'src/b\*' none; do
    picks --exclude "$glob"
  done
  picks --exclude node_modules --exclude '**.min.js'
done
in_picks=$((applied - in_examples))
((in_picks)) || fail 'no pick of files changes one'

# What is told, line by line
tells() {
  local wanted=$1 errors=$2 status=0
  "$program" --root "$tree" "${call[@]}" > "$room/out" 2> "$room/error" || status=$?
  [[ $(< "$room/out") == "$wanted" ]] || fail "${call[*]}: it tells $(< "$room/out")"
  [[ $(< "$room/error") == "$errors" ]] || fail "${call[*]}: it refuses $(< "$room/error")"
  [[ $status == $((${#errors} > 0)) ]] || fail "${call[*]}: status $status"
}
files a.py '# SPDX-License-Identifier: MIT\n\nx\n' b.py 'y\n' odd 'z\n' p.png '\x89' d.toml '' \
  'LICENSES/MIT.txt' 'text\n'
call=(annotate -n -l MIT -r --skip-unrecognised .)
tells \
  $'unchanged a.py\nwould change b.py\nwould change d.toml\nskipped odd\nwould change p.png.license' \
  ''
call=(annotate -n -l ISC --skip-existing --skip-unrecognised a.py b.py odd)
tells $'skipped a.py\nwould change b.py\nskipped odd' ''
call=(annotate -n -l MIT a.py none odd LICENSES/MIT.txt b.py)
tells \
  $'unchanged a.py\nwould change b.py' \
  "$(printf 'reuse-undo: %s\n' 'LICENSES/MIT.txt: not covered' 'none: no such path' \
    'odd: unrecognised')"
call=(annotate -n -l MIT .)
tells '' 'reuse-undo: .: is a folder'
call=(download -n --texts "$tree/LICENSES" 'a b' MIT None)
tells '' $'reuse-undo: LICENSES/MIT.txt: exists\nreuse-undo: no text: None\nreuse-undo: bad id: a b'
call=(convert-dep5 -n)
tells '' 'reuse-undo: .reuse/dep5: absent'
call=(undo -n)
tells '' 'reuse-undo: nothing to undo'
call=(revert -n 1)
tells '' 'reuse-undo: no such step: 1'
"$program" --root "$tree" annotate -l ISC -r --skip-unrecognised . > "$room/out"
echo more >> "$tree/a.py"
echo less > "$tree/p.png.license"
call=(undo -n)
tells $'would change b.py\nwould change d.toml' \
  $'reuse-undo: a.py: moved\nreuse-undo: p.png.license: moved'
call=(revert -n 1)
tells $'would change a.py\nwould change b.py\nwould change d.toml' \
  'reuse-undo: p.png.license: moved'
call=(revert -n --skip-moved 1)
tells $'would change a.py\nwould change b.py\nwould change d.toml\nskipped p.png.license' ''
# Words that are wrong
for words in 'annotate --diff -l MIT a.py' 'log -n' 'show -n 1' 'show' 'revert' 'revert x' \
  'show --diff --json 1' 'log --diff'; do
  status=0
  "$program" --root "$tree" $words > "$room/out" 2>&1 || status=$?
  ((status == 2)) || fail "$words: status $status"
done
# A binary in one line
mkdir "$room/nul"
printf 'a\0b' > "$room/nul/MIT-0.txt"
call=(download -n --diff --texts "$room/nul" MIT-0)
tells "$(printf '%s\n' 'would change LICENSES/MIT-0.txt' \
  'diff --git a/LICENSES/MIT-0.txt b/LICENSES/MIT-0.txt' 'new file mode 100644' \
  'Binary files /dev/null and b/LICENSES/MIT-0.txt differ')" ''

# Random trees
python3 - "$rounds" "$room/rounds" << 'PYTHON'
import os, random, sys

rounds, folder = int(sys.argv[1]), sys.argv[2]
random.seed()
real = []
for top in ('/usr/lib/python3', '/usr/share'):
    for path, folders, names in os.walk(top):
        folders[:] = [name for name in folders if name != '__pycache__']
        real += [os.path.join(path, name) for name in names]
def is_taken(path):
    return os.path.isfile(path) and not os.path.islink(path) and os.path.getsize(path) < 60000
real = [path for path in random.sample(real, min(len(real), 4000)) if is_taken(path)]
lines = ['x = 1', '', '# SPDX-License-Identifier: MIT', '# SPDX-FileCopyrightText: 2020 Jane Doe',
         '#', '/* SPDX-License-Identifier: ISC */', '// SPDX-FileCopyrightText: A', '#!/bin/sh',
         '<?xml version="1.0"?>', '# -*- coding: utf-8 -*-', 'é', '--- a', '+++ b', '@@ -1 +1 @@',
         '\\ No newline', ' ', '/*', ' * SPDX-FileContributor: B', ' */', '\t']
endings = ['.py', '.c', '.sh', '.html', '.css', '.tex', '.el', '.ml', '.json', '.png', '.vim',
           '.unknown', '']
names = ['a', 'b c', 'é', 'q"q', 'b\\s', 't\tt', "a'b", '-x', 'z', 'deep/er/f', 'd/e', ' s ', '#h']

def text():
    end = random.choice(['\n', '\n', '\n', '\r\n', '\r'])
    made = end.join(random.choice(lines) for _ in range(random.choice([0, 1, 2, 3, 5, 9, 40])))
    made = random.choice(['', '', '', '\ufeff']) + made + random.choice(['', end])
    return made.encode() if random.random() < .93 else made.encode() + bytes([255])

for number in range(rounds):
    tree = os.path.join(folder, str(number))
    os.makedirs(tree)
    for _ in range(random.randrange(1, 9)):
        if real and random.random() < .5:
            source = random.choice(real)
            name, made = os.path.basename(source), open(source, 'rb').read()
        else:
            name, made = random.choice(names) + random.choice(endings), text()
        path = os.path.join(tree, name)
        try:
            os.makedirs(os.path.dirname(path), exist_ok=True)
            with open(path, 'wb') as file:
                file.write(made)
        except OSError:
            pass
PYTHON
options=('-c|Jane Doe|-y|2024' '-l|MIT' '-c|Jane Doe|-l|ISC' '--contributor|B'
  '-c|A --> B|--exclude-year' '-l|GPL-2.0+|--multi-line' '-c|C|-y|2001|--merge-copyrights'
  '-l|MIT|--no-replace' '-c|D|--single-line' '-l|MIT|--force-dot-license' \
  '-c|E|--copyright-prefix|symbol' '-l|0BSD' '-c|F|-s|c')
amendments=('--replace-license|MIT|ISC OR 0BSD' '--replace-license|ISC|MIT' '--remove-license|MIT'
  '--replace-holder|Jane Doe|Jane Roe' '--remove-holder|A' '--replace-contributor|B|C'
  '--remove-contributor|B' '--until|2031' '--until|2031|--holder|Jane Doe'
  '--copyright-prefix|string-c' '--copyright-prefix|symbol|--holder|A')
globs=('*.py' '**.c' deep d/ '**/f' 'b*' '?' '*' '**' '**/*.*')
fallbacks=(--fallback-dot-license --fallback-dot-license --skip-unrecognised --skip-existing)
for ((round = 0; round < rounds; round++)); do
  tree=$room/rounds/$round
  ((RANDOM % 4)) || make_dep5 "$tree"
  for ((k = 0; k < 4; k++)); do
    case $((RANDOM % 10)) in
      0) call=(undo) ;;
      1) call=(redo) ;;
      2) call=(revert $((RANDOM % 3 + 1))) ;;
      3) call=(revert --skip-moved $((RANDOM % 3 + 1))) ;;
      4) call=(convert-dep5) ;;
      *)
        if ((RANDOM % 3)); then
          IFS='|' read -ra words <<< "${options[RANDOM % ${#options[@]}]}"
          call=(annotate "${words[@]}" -r "${fallbacks[RANDOM % ${#fallbacks[@]}]}" .)
        else
          IFS='|' read -ra words <<< "${amendments[RANDOM % ${#amendments[@]}]}"
          call=(amend "${words[@]}" -r .)
        fi
        for ((glob = RANDOM % 6; glob < 2; glob++)); do
          call+=(--exclude "${globs[RANDOM % ${#globs[@]}]}")
        done
        if ((RANDOM % 3 == 0)); then
          # (a `shuf` that is to pick none doesn't read, so no pipe leads there)
          find "$tree" -type f -not -path '*/.reuse/*' -printf '%P\0' > "$room/files"
          shuf -z -n $((RANDOM % 6)) "$room/files" > "$room/list"
          call+=(--files-from "$room/list")
        fi
        ;;
    esac
    compare
    "$program" --root "$tree" "${call[@]}" > "$room/out" 2>&1 || true
    if ((RANDOM % 3 == 0)); then
      find "$tree" -type f -not -path '*/.reuse/*' -print0 | shuf -z -n 1 |
        xargs -0 -r sh -c 'echo "more" >> "$1"' sh
    fi
  done
  rm -rf "$tree"
done
python3 - "$room/json" "$compared" << 'PYTHON' || fail 'the objects of a dry run'
import json, sys
folder, count = sys.argv[1], int(sys.argv[2])
for number in range(1, count + 1):
    name = f'{folder}/{number}'
    read = lambda end: open(name + end, encoding='utf-8', newline='').read()
    rows = [json.loads(line) for line in read('').split('\n')[:-1]]
    taken = [row for row in rows if row['outcome'] != 'refused']
    words = {'left': 'would leave'}
    lines = ''.join(f"{words.get(row['outcome'], row['outcome'])} {row['path']}\n" for row in taken)
    assert lines == read('.lines'), (number, lines, read('.lines'))
    refused = [row for row in rows if row['outcome'] == 'refused']
    reasons = ''.join(f"reuse-undo: {row['reason']}\n" for row in refused)
    refusals = read('.refusals')
    # What refuses the call as a whole stands on standard error alone.
    is_whole = not rows and refusals.count('\n') == 1
    assert reasons == refusals or is_whole, (number, reasons, refusals)
    for row in refused:
        assert row['path'] is None or row['path'] in row['reason'], row
PYTHON
echo "$compared dry runs on ${#examples[@]} examples, $picks picks of files and $rounds random" \
  "trees: $refused refused" \
  "as the calls were, $leaving left files; $applied diffs gave the tree of the call," \
  "$in_examples of them of examples, $in_picks of picks and $amended of amend"
