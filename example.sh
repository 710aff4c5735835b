#!/usr/bin/env bash
# Runs the program on a folder with two Python files: annotates both, takes both steps back, and
# makes the first again. Where the proved program was built (./install.sh), it is that one; else the
# program is compiled without proof, which takes some three minutes.
set -euo pipefail
top=$(cd "$(dirname "$0")" && pwd)
room=$(mktemp -d)
trap 'rm -rf "$room"' EXIT
mkdir "$room/tree" "$room/calls"
echo 'print(1)' > "$room/tree/a.py"
echo 'print(2)' > "$room/tree/b.py"
proved=$top/crates/reuse_undo/out/reuse_undo

# The calls, in order: a file each, with a word in each line.
calls=()
call() {
    local name word line=
    for word in "$@"; do
        [[ $word != *' '* ]] || word="\"$word\""
        line+=" $word"
    done
    calls+=("reuse-undo$line")
    name=$(printf '%02d' ${#calls[@]})
    : > "$room/calls/$name"
    printf '%s\n' --root "$room/tree" "$@" > "$room/calls/$name.args"
}
call annotate --copyright "Jane Doe" --license MIT --year 2024 a.py
call annotate --copyright "Joe Bloggs" --license ISC --year 2024 b.py
call log
call undo
call undo
call redo
call log

# Writes the call in place of the line "== NUMBER" above what it printed.
as_calls() {
    local line
    while IFS= read -r line; do
        if [[ $line =~ ^==\ ([0-9]+)$ ]]; then
            echo "\$ ${calls[10#${BASH_REMATCH[1]} - 1]}"
        else
            echo "$line"
        fi
    done
}

if [ -x "$proved" ]; then
    echo "This is the proved program."
    for words in "$room"/calls/*.args; do
        mapfile -t given < "$words"
        echo "== $(basename "$words" .args)"
        "$proved" "${given[@]}"
    done | as_calls
else
    if ! command -v rt > /dev/null; then
        echo "The Rattle kit isn't there: no command rt. README.md says what to do without it." >&2
        exit 1
    fi
    echo "This build is NOT proved yet: it is compiled without proof, to show what the program" \
      "does. ./install.sh proves and builds it."
    echo "compiling, which takes some three minutes .." >&2
    cd "$top/crates/reuse_undo"
    rt try --cases "$room/calls" > "$room/printed" 2> "$room/told" ||
        { tail -n 20 "$room/told" >&2; exit 1; }
    as_calls < "$room/printed"
fi
for file in a.py b.py; do
    echo
    echo "\$ cat $file"
    cat "$room/tree/$file"
done
