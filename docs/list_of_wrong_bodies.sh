#!/usr/bin/env bash
# Lists each wrong body of crates/*/must-fail and of tests/wrong_bodies, with what its lines `says:`
# and `refused by:` have, which rt doesn't read, as a page in Markdown.
# usage: docs/list_of_wrong_bodies.sh
set -euo pipefail
cd "$(dirname "$0")/.."
cat << 'HEAD'
# Wrong bodies

What the prover must refuse, crate by crate: edits of a body that still compile and read well. Each
line has what the body does, the clause that no longer holds of it, and the name of the edit.

- An edit stands in `tests/wrong_bodies/CRATE/`. One with a star stands in
  `crates/reuse_text/must-fail/`, where the gate tries it by a check of its own.
- `tests/wrong_bodies.sh` tries all of them, many in one check. `./test.sh` calls it.
- A clause is named behind its function. A function with one clause needs no name.
- If the edit is inside a loop, what fails is the loop's invariant, which says the clause as far as
  the loop has come.
- A member (`eq`, `cmp`, `output`, `next_gives`) stands at the `impl` of its trait.
- The stores with faults are `FaultyStore`, under the names `FuseStore` (from the k-th call on) and
  `OnceStore` (the k-th call alone). The clauses of a store's calls are those of the trait `Store`.
- Of the program and the crates that were made of it, from `reuse_system` on, the function is named
  whose contract an edit breaks, also where it is a private one. That each edit is refused is tried;
  by which clause was read from the contracts.
HEAD
mapfile -t crates < <(sed -n 's/^\([a-z0-9_]*\):.*/\1/p' crates.txt)
for crate in "${crates[@]}"; do
  printf '\n## %s\n\n' "$crate"
  { find "crates/$crate/must-fail" "tests/wrong_bodies/$crate" -name '*.edit' 2> /dev/null || :; } |
    sed -E 's#.*/(.*)#\1 &#' | LC_ALL=C sort | while read -r name edit; do
    star=
    [[ $edit != crates/* ]] || star='*'
    says=$(sed -n 's/^says: //p' "$edit")
    refused=$(sed -n 's/^refused by: //p' "$edit")
    if [[ -z $says || -z $refused ]]; then
      echo "$edit has no line 'says: ..' or no line 'refused by: ..'" >&2
      exit 1
    fi
    echo "- $says: $refused (\`${name%.edit}\`$star)" | fold -s -w 98 | sed -E 's/ $//; 2,$s/^/  /'
  done
done
