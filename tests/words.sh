#!/usr/bin/env bash
# Compares the program's help, the manual page and docs/REFERENCE.md: of each subcommand the
# options, one by one, with their short names and values; subcommands, styles and prefixes. Looks in
# the manual page for each text of a refusal that the definitions of these texts have, and compares
# the version with that of CHANGELOG.md. The manual page passes mandoc's and man's own tests. What
# each shell completes is compared by completions.sh. Ends with status 1 at the first fault.
# usage: tests/words.sh PROGRAM
set -euo pipefail
. "$(dirname "$0")/common.sh"
wants mandoc mandoc
wants man man-db
wants groff groff-base
top=$(realpath "$(dirname "$0")/..")
page=$top/share/man/man1/reuse-undo.1
reference=$top/docs/REFERENCE.md

# The manual page as text
manual() { mandoc -T utf8 -O width=200 "$page" | sed 's/.\x08//g'; }
manual > "$room/manual"

# Where two lists differ, the words that only one has are told.
same() { diff <(sort -u "$2") <(sort -u "$3") > "$room/diff" || fail "$1: $(cat "$room/diff")"; }

# Each line of the file stands in the text, as a word.
all_in() {
  local word
  while IFS= read -r word; do
    grep -qE -- "(^|[^A-Za-z0-9-])${word}([^A-Za-z0-9-]|\$)" "$3" || fail "$1: $word is not told"
  done < "$2"
}

help_subcommands > "$room/subcommands"
{
  help_options
  while read -r word; do
    [[ $word == help ]] || help_options "$word"
  done < "$room/subcommands"
} | sort -u > "$room/options"
help_values style > "$room/styles"
help_values copyright-prefix > "$room/prefixes"
[[ $(wc -l < "$room/subcommands") -ge 7 && $(wc -l < "$room/options") -ge 27 &&
  $(wc -l < "$room/styles") -ge 10 && $(wc -l < "$room/prefixes") -ge 10 ]] \
  || fail 'help has fewer words than it had'

mandoc -T lint "$page" > "$room/lint" 2>&1 || fail "mandoc: $(cat "$room/lint")"
LC_ALL=C.UTF-8 man --warnings -E UTF-8 -l -Tutf8 -Z "$page" 2> "$room/lint" > "$room/out" ||
  fail "man: $(cat "$room/lint")"
[[ ! -s $room/lint ]] || fail "man: $(cat "$room/lint")"

# The long options in a text
options_of() {
  grep -oE -- '(^|[^A-Za-z0-9-])--[a-z][a-z0-9-]*' "$1" | sed -E 's/^[^-]//' | sort -u
}
for list in subcommands options styles prefixes; do
  all_in "the manual page" "$room/$list" "$room/manual"
  all_in "docs/REFERENCE.md" "$room/$list" "$reference"
done
# And none that help hasn't
options_of "$room/manual" > "$room/manual_options"
grep -E '^--' "$room/options" > "$room/long_options"
same 'options of help and of the manual page' "$room/long_options" "$room/manual_options"
grep -E 'reuse-undo ' "$reference" "$top/docs/HOWTO.md" | grep -v 'git ' > "$room/lines"
options_of "$room/lines" > "$room/used_options"
while read -r word; do
  grep -qxF -- "$word" "$room/long_options" ||
    fail "docs/REFERENCE.md, HOWTO.md: $word is no option"
done < "$room/used_options"

# Option by option: a line `-c, --copyright TEXT` for each option of a section of the manual page,
# of the reference, or of a subcommand's help
one_each() {
  awk -F', ' '{
    short = ""
    for (k = 1; k <= NF; k++) {
      if ($k ~ /^--/) { print short $k; short = "" }
      else short = $k ", "
    }
  }' | sort
}
in_manual() {
  awk -v section=".Ss $1" \
    '/^\.S[hs] / { inside = $0 == section } inside && /^\.It Fl / { print substr($0, 5) }' "$page" |
    sed -E 's/Fl -/--/g; s/Fl /-/g; s/ Ar / /g; s/ , /, /g' | one_each
}
in_reference() {
  awk -v section="## $1" '/^## / { inside = $0 == section } inside && /^\| `-/ { print }' \
    "$reference" |
    sed -E 's/^\| ([^|]*) \|.*/\1/; s/`//g' | one_each
}
in_help() {
  local short='(-[a-zA-Z], )?' alias='\[alias(es)?: (--[a-z-]+)\]'
  "$program" "$@" --help | sed -nE '/^Options:/,/^$/s/^ +(-.*)/\1/p' |
    sed -E "s/^(${short}--[a-z-]+(( <[A-Z]+>)*))(.*$alias)?.*/\\1, \\7\\3/" |
    sed -E 's/, ( <[A-Z]+>)*$//; s/[<>]//g' | one_each
}
compared=0
for section in 'Options of all subcommands' 'Dry runs' $(grep -vx help "$room/subcommands"); do
  in_manual "$section" > "$room/in_manual"
  in_reference "$section" > "$room/in_reference"
  same "options of the manual page and of docs/REFERENCE.md, $section" "$room/in_manual" \
    "$room/in_reference"
  case $section in
    Options*)
      in_help > "$room/in_help"
      cp "$room/in_help" "$room/in_each"
      ;;
    Dry*) cp "$room/in_manual" "$room/in_dry_runs" && continue ;;
    *)
      in_help "$section" | grep -vxFf "$room/in_each" > "$room/in_help" || true
      case $section in
        recover | forget | log | show) ;;
        *) cat "$room/in_dry_runs" >> "$room/in_manual" ;;
      esac
      ;;
  esac
  same "options of help and of the manual page, $section" "$room/in_help" "$room/in_manual"
  compared=$((compared + $(wc -l < "$room/in_help")))
done

# The texts of refusals: each text of the definitions, with a colon that joins it with a path, a
# number or another text. `broken` is told of a second call of one session, which the program makes
# of none, and in the place of `would be refused` a dry run prints the refusals themselves.
sed -nE '/^DIAGNOSTICS$/,/^[A-Z]{2}/{/^ /p}' "$room/manual" > "$room/diagnostics"
mapfile -t definitions < <(find "$top"/crates/*/specs -name RefusalTexts.antt)
grep -ohE 'codes "[^"]*"' "${definitions[@]}" | sed -E 's/^codes "//; s/ ?"$//' |
  grep -vxE ':|broken|would be refused' | sort -u > "$room/refusals"
texts=$(wc -l < "$room/refusals")
((${#definitions[@]} >= 4 && texts >= 55)) ||
  fail "${#definitions[@]} definitions have $texts texts of refusals, fewer than they had"
while IFS= read -r text; do
  grep -qF -- "$text" "$room/diagnostics" || fail "the manual page: the refusal $text is not told"
done < "$room/refusals"

version=$("$program" --version | sed -nE '1s/^reuse-undo ([0-9.]+)$/\1/p')
[[ -n $version ]] || fail "--version tells $("$program" --version)"
[[ $(sed -nE 's/^## \[([0-9.]+)\].*/\1/p' "$top/CHANGELOG.md" | head -n 1) == "$version" ]] ||
  fail "CHANGELOG.md is not of version $version"
echo "$compared options of help, manual page and reference are the same, and" \
  "$(cat "$room/styles" "$room/prefixes" | wc -l) names are told, and no other options;" \
  "each of $texts texts of refusals stands in the manual page"
