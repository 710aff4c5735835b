#!/usr/bin/env bash
# Lists each public function and each member of a trait that has a contract, with the names of its
# clauses, from crates/*/src, as a page in Markdown.
# usage: docs/index_of_clauses.sh
set -euo pipefail
cd "$(dirname "$0")/../crates"
cat << 'HEAD'
# The clauses

Each public function and each member of a trait that has a contract, with the names of its clauses.
A clause without a name is written `-`. Private functions are left out. What the clauses say is in
docs/PROOFS.md, and in the sources beside each function.
HEAD
mapfile -t crates < <(sed -n 's/^\([a-z0-9_]*\):.*/\1/p' ../crates.txt)
for crate in "${crates[@]}"; do
  printf '\n## %s\n\n| file | function | clauses |\n|---|---|---|\n' "$crate"
  find "$crate/src" -name '*.rt' | LC_ALL=C sort | while IFS= read -r file; do
    awk -v file="${file#"$crate/src/"}" '
      # The type or the trait that members stand in: `Session`, or `Store for DiskStore`
      function owner_of(text) {
        sub(/^(pub )?(impl|trait)/, "", text)
        text = without_brackets(text)
        gsub(/ where .*|\{.*/, "", text)
        sub(/:.*/, "", text)
        gsub(/^ +| +$/, "", text)
        return text
      }
      function without_brackets(text,    at, depth, sign, left) {
        gsub(/->/, "", text)
        for (at = 1; at <= length(text); at++) {
          sign = substr(text, at, 1)
          if (sign == "<") depth++
          else if (sign == ">") depth--
          else if (!depth) left = left sign
        }
        return left
      }
      function row(clauses) {
        print "| " shown " | " name " | " clauses " |"
        shown = name = ""
      }
      function finish(    at, line) {
        if (fn && count) {
          shown = file == last ? "" : "`" file "`"
          last = file
          name = "`" fn "`"
          for (at = 1; at <= count; at++) {
            if (line && length("|  |  |  |" shown name line clause[at]) > 98) {
              row(line)
              line = ""
            }
            line = line (line ? ", " : "") clause[at]
          }
          row(line)
        }
        fn = ""
        count = 0
      }
      /^(pub )?(impl|trait)/ { finish(); head = $0; is_head = 1 }
      is_head && !/^(pub )?(impl|trait)/ { head = head " " $0 }
      is_head && /\{/ {
        owner = owner_of(head)
        is_trait = head ~ /^(pub )?trait/ || owner ~ / for /
        is_head = 0
        next
      }
      /^}/ { finish(); owner = "" }
      /^(    )?(pub |pub\(crate\) )?(const )?fn / {
        finish()
        is_member = /^    /
        is_public = /^ *pub (const )?fn / || (is_member && is_trait)
        match($0, /fn [A-Za-z0-9_]+/)
        fn = substr($0, RSTART + 3, RLENGTH - 3)
        fn = is_public ? (is_member && owner ? owner "::" : "") fn : ""
        next
      }
      /^(    )?\{/ { finish() }
      fn && /^ *ensures/ {
        text = $0
        sub(/^ *ensures */, "", text)
        match(text, /^[a-z0-9_]*/)
        clause[++count] = RLENGTH ? "`" substr(text, 1, RLENGTH) "`" : "`-`"
      }
      END { finish() }' "$file"
  done
done
