#!/usr/bin/env bash
# Tries the wrong bodies of crates/CRATE/must-fail and of tests/wrong_bodies/CRATE: each must be
# refused. A body is checked against contracts alone, so many edits of different functions are tried
# in one check: a round. An edit counts as refused if a goal of its own function fails there, and
# what a round leaves open is tried alone (tests/wrong_bodies/rounds.py). It works in a copy of the
# crates. A crate whose edits passed is passed over until a file that was read changes. The last
# line counts the edits.
# RT_JOBS: how many checks run side by side.
# usage: tests/wrong_bodies.sh [-g] [CRATE..]      (by default each crate that has edits)
#   -g   the gate has passed: begins with what it kept, and else with what `rt check` kept
set -euo pipefail
top=$(cd "$(dirname "$0")/.." && pwd)
begin=checks
if [ "${1:-}" = -g ]; then begin=gate; shift; fi
room=$(mktemp -d)
trap 'rm -rf "$room"' EXIT

has_edits() {
    [ -n "$(find "$top/crates/$1/must-fail" "$top/tests/wrong_bodies/$1" -name '*.edit' \
        -print -quit 2> /dev/null)" ]
}
crates=("$@")
if [ $# = 0 ]; then
    while read -r crate; do
        ! has_edits "$crate" || crates+=("$crate")
    done < <(sed -n 's/^\([a-z0-9_]*\):.*/\1/p' "$top/crates.txt")
fi
for crate in "${crates[@]}"; do
    has_edits "$crate" || { echo "No crate $crate has edits." >&2; exit 2; }
done
python3 "$top/tests/wrong_bodies/rounds.py" "$top" "$room" "${RT_JOBS:-$(nproc)}" "$begin" \
    "${crates[@]}"
