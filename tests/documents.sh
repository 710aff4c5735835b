#!/usr/bin/env bash
# Looks at the documents: the lists that scripts make of the sources can be made, and those of the
# manual page are as they are made of the reference; what the page on the headline names is there,
# and so are the files that documents name; each crate has its row; each link leads to a file, and
# to a heading of it; README has 120 lines at most, and the tutorial 80. No line outside of tables
# and code has over 100 columns, and no cell and no sentence over 25 words.
# usage: tests/documents.sh PROGRAM      (which isn't run)
set -euo pipefail
. "$(dirname "$0")/common.sh"
wants python3 python3
cd "$(dirname "$0")/.."
documents=(README.md SECURITY.md CONTRIBUTING.md CHANGELOG.md docs/*.md)

for script in index_of_clauses list_of_modules list_of_wrong_bodies; do
  "docs/$script.sh" > "$room/list" || fail "docs/$script.sh"
  (($(wc -l < "$room/list") > 300)) || fail "docs/$script.sh lists next to nothing"
done

# The lists of the manual page are those of the reference.
docs/manual_options.py --check > "$room/list" || fail 'call docs/manual_options.py'

# The definitions and types that the page on the headline names
docs/theorem.py --all --names > "$room/names" || fail "docs/theorem.py"
(($(wc -l < "$room/names") > 600)) || fail "docs/theorem.py lists next to nothing"
while IFS= read -r name; do
  grep -q " $name\$" "$room/names" || fail "docs/THEOREM.md: nothing is called $name"
done < <(grep -oE '`[A-Z][A-Za-z]+`' docs/THEOREM.md | tr -d '`' | sort -u)

# The headings of a document, as links name them, and the names of other places
headings() {
  sed -nE 's/^#+ +//p' "$1" | tr '[:upper:]' '[:lower:]' | sed -E 's/[^a-z0-9 _-]//g; s/ /-/g'
  sed -nE 's/^<a name="([^"]+)">.*/\1/p' "$1"
}
links=0
while IFS=$'\t' read -r document link; do
  links=$((links + 1))
  file=${link%%#*}
  file=${file:+$(dirname "$document")/$file}
  file=${file:-$document}
  [[ -e $file ]] || fail "$document: no file for the link $link"
  [[ $link != *'#'* ]] || grep -qxF -- "${link#*#}" <(headings "$file") ||
    fail "$document: no heading for the link $link"
done < <(grep -oE '\]\([^) ]+\)' "${documents[@]}" | grep -v '](https\?:' |
  sed -E 's/:\]\(/\t/; s/\)$//')
((links >= 30)) || fail "only $links links"

# The files that documents name: each of the recipes, and elsewhere those of sources, tests and
# measurements, by their names or with folders
git ls-files --cached --others --exclude-standard 2> /dev/null > "$room/files" ||
  find . -type f -not -path '*/out/*' -not -path './.git/*' -printf '%P\n' > "$room/files"
sed -nE '/^## Where a change goes/,/^## Checking/p' CONTRIBUTING.md |
  tee "$room/all" | grep -oE '`[A-Za-z0-9_.-]+/[A-Za-z0-9_./-]+`' | tr -d '`' | sort -u \
  > "$room/recipes"
(($(wc -l < "$room/recipes") >= 150)) || fail 'CONTRIBUTING.md names few files'
for recipe in 'A rule' 'A comment style of the table' 'A ready name, or a ready style' \
  'A subcommand that reads' 'A subcommand that changes files' 'A kind of change'; do
  awk -v recipe="### $recipe" '/^### / { inside = $0 == recipe } inside' "$room/all" |
    grep -q 'tests/wrong_bodies/' || fail "CONTRIBUTING.md: no wrong body in '$recipe'"
done
while IFS= read -r file; do
  [[ -e $file || -e crates/$file ]] || fail "CONTRIBUTING.md: there is no $file"
done < "$room/recipes"
grep -ohE '`[A-Za-z0-9_./-]+\.(antt|rt)`|`(tests|bench|docs)/[A-Za-z0-9_./-]+[a-z]`' \
  "${documents[@]}" | tr -d '`' | sort -u > "$room/named"
awk '{ print; while (sub(/^[^\/]*\//, "")) print }' "$room/files" > "$room/known"
{ grep -vxFf "$room/known" "$room/named" || :; } > "$room/missing"
while IFS= read -r file; do
  [[ -e $file ]] || fail "a document names $file, which isn't there"
done < "$room/missing"
# Names of the sources, that is words with an underscore or with capitals in them, stand there. What
# is named in PROOFS.md and README.md as a function's clause is a clause or a field.
grep -E '^crates/.*\.(rt|antt)$' "$room/files" | xargs cat > "$room/sources"
grep -oE '[A-Za-z_][A-Za-z0-9_]+' "$room/sources" | LC_ALL=C sort -u > "$room/words"
for page in ARCHITECTURE DECISIONS GLOSSARY JOURNAL PROOFS RULES THEOREM; do
  awk '/^```/ { code = !code } !code' "docs/$page.md" | tr '\n' ' ' |
    grep -oE '`[A-Za-z_]+(::[A-Za-z_]+)*`' | tr -d '`' | sed 's/::/\n/g' |
    grep -E '_|^[A-Z][a-z]+[A-Z]' | grep -vx node_modules | LC_ALL=C sort -u > "$room/names"
  LC_ALL=C comm -23 "$room/names" "$room/words" > "$room/missing"
  [[ ! -s $room/missing ]] ||
    fail "docs/$page.md: nothing is called $(paste -sd ' ' "$room/missing")"
done
{
  grep -oE 'ensures +[a-z_]+ *\{' "$room/sources" | sed -E 's/ensures +//; s/ *\{//'
  sed -nE 's/^ +(pub )?([a-z_]+) :.*/\2/p' "$room/sources"
} | LC_ALL=C sort -u > "$room/clauses"
cat docs/PROOFS.md README.md | tr '\n' ' ' | tr -s ' ' | grep -oE '`[A-Za-z_:]+`: `[a-z_]+`' |
  sed -E 's/.*: `//; s/`//' | LC_ALL=C sort -u | LC_ALL=C comm -23 - "$room/clauses" |
  grep -vxFf <(grep -oE 'fn [a-z_]+' "$room/sources" | cut -c 4- | sort -u) > "$room/missing" || :
[[ ! -s $room/missing ]] ||
  fail "PROOFS.md: there is no clause $(paste -sd ' ' "$room/missing")"

diff <(sed -nE 's/^([a-z0-9_]+):.*/\1/p' crates.txt | sort) \
  <(sed -nE 's/^\| (reuse_[a-z0-9_]+) \|.*/\1/p' docs/ARCHITECTURE.md | sort) > "$room/crates" ||
  fail "the crates of docs/ARCHITECTURE.md: $(cat "$room/crates")"

diff <(sed -nE 's/^## //p' docs/HOWTO.md) <(sed -nE 's/^- \[(.*)\]\(#.*/\1/p' docs/HOWTO.md) \
  > "$room/how_tos" || fail "the list of docs/HOWTO.md: $(cat "$room/how_tos")"
(($(wc -l < README.md) <= 120)) || fail "README.md has over 120 lines"
(($(wc -l < docs/TUTORIAL.md) <= 80)) || fail "docs/TUTORIAL.md has over 80 lines"
for document in "${documents[@]}"; do
  awk '
    function tell(what) { print FILENAME ":" FNR ": a long " what }
    /^```/ { is_code = !is_code }
    is_code || /^    / { next }
    /^\|/ {
      cells = split($0, cell, / \| |^\| | \|$/)
      for (k = 1; k <= cells; k++) if (split(cell[k], words, / +/) > 25) tell("cell")
      next
    }
    { gsub(/[\200-\277]/, "") }
    length($0) > 100 { tell("line") }' "$document"
done > "$room/long"
[[ ! -s $room/long ]] || fail "$(cat "$room/long")"
docs/long_sentences.py "${documents[@]}" > "$room/sentences"
[[ ! -s $room/sentences ]] || fail "$(cat "$room/sentences")"
recipes=$(wc -l < "$room/recipes")
echo "$links links lead somewhere, $recipes files of recipes are there, three lists are made, and" \
  "${#documents[@]} documents are short"
