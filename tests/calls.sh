#!/usr/bin/env bash
# Tests of calls: those of single calls of the libraries, with worked values (tests/calls/), and
# those of sessions over stores in memory (tests/sessions/): commands, histories and reverts; each
# call of the store fails, for good or once; each growth of memory is refused; journals that are
# damaged, or of both formats. They are compiled without proof, in a copy of the crates, as modules
# of reuse_session, which stands on all other libraries: as tests of the crates the gate would prove
# each of their functions, and each crate once more, for an hour. (The gate takes no sources beside
# those of crates, so they end in .txt.) `.ci/run` runs this beside the gate.
# usage: tests/calls.sh
set -euo pipefail
top=$(cd "$(dirname "$0")/.." && pwd)
room=$(mktemp -d)
trap 'rm -rf "$room"' EXIT
cp "$top/crates.txt" "$top/HANDLES" "$room"
for crate in "$top"/crates/*; do
    to=$room/crates/$(basename "$crate")
    mkdir -p "$to"
    cp -r "$crate/src" "$crate/specs" "$crate/proofs" "$to"
done
src=$room/crates/reuse_session/src
for folder in call session; do
    printf '#[cfg(test)]\nmod %s_tests;\n' $folder >> "$src/lib.rt"
    mkdir "$src/${folder}_tests"
    for module in "$top/tests/${folder}s"/*.txt; do
        name=$(basename "$module" .txt)
        cp "$module" "$src/${folder}_tests/$name.rt"
        echo "mod $name;" >> "$src/${folder}_tests.rt"
    done
done
cd "$src/.."
rt try --test --seconds 300 > "$room/log" 2>&1 || { tail -n 40 "$room/log"; exit 1; }
grep '^test result' "$room/log"
