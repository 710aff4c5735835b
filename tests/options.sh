#!/usr/bin/env bash
# Runs words with options of annotate, words that are refused, each pair of options of one call that
# exclude each other or want another one, words that ask for help, and words for places, and
# compares as worked_lines.sh does, whose functions it takes. Ends with status 1 at the first fault.
# usage: tests/options.sh PROGRAM
# The tags below are data: REUSE-IgnoreStart
set -euo pipefail
. "$(dirname "$0")/worked_lines.sh"

# Options that leave what is written for a.py as it is without them, and what each of them does
# elsewhere. (--merge-copyrights, --no-replace, -r, and those of neighbours and of what is skipped
# do it in worked_lines.sh, and --no-sync in syncs.sh.)
settings() {
  local option style comment
  writes '-l|MIT|a.py' a.py 'x\n' to a.py "$tagged"
  for option in \
    --single-line --merge-copyrights --no-replace --recursive -r --fallback-dot-license \
    --skip-unrecognised --skip-existing \
    --exclude-year --no-sync -- '--recursive|--exclude|**a|--exclude=*'; do
    writes "-l|MIT|$option|a.py" a.py 'x\n' to a.py "$tagged"
  done
  writes '-l|MIT|-s|python|--|-r' -r 'x\n' to -r "$tagged"
  writes '-l|MIT|k.h' k.h '/* SPDX-License-Identifier: ISC */\nx\n' to k.h \
    '/*\n * SPDX-License-Identifier: ISC\n * SPDX-License-Identifier: MIT\n */\nx\n'
  writes '-l|MIT|--single-line|k.h' k.h '/* SPDX-License-Identifier: ISC */\nx\n' to k.h \
    "// SPDX-License-Identifier: ISC\n// ${tag}x\n"
  writes '-l|MIT|k.c' k.c 'x\n' to k.c "// $tag\nx\n"
  writes '-l|MIT|--multi-line|k.c' k.c 'x\n' to k.c "/*\n * $tag */\n\nx\n"
  writes '-l|MIT|--recursive|src' src/a.py 'x\n' src/deep/b.py 'x\n' to src/a.py "$tagged" \
    src/deep/b.py "$tagged"
  writes '-l|MIT|--recursive|-s|python|--exclude|**a|--exclude=a*|.' a.py 'x\n' src/a 'x\n' \
    src/b.py 'x\n' src/deep/ba 'x\n' to src/b.py "$tagged"
  for option in -n --dry-run; do
    stays "-l|MIT|$option|a.py" 0 'would change a.py\n' a.py 'x\n'
    tells log 0 ''
  done
  writes '-l|MIT|--style|python|a.css' a.css 'x\n' to a.css "$tagged"
  for style in 'c=// @' 'css=/*\n * @ */\n' 'html=<!--\n@-->\n' 'haskell=-- @' 'tex=% @' \
    'lisp=;; @' 'semicolon=; @' 'ml=(*\n * @ *)\n' 'vim=" @'; do
    comment=${style#*=}
    writes "-l|MIT|-s|${style%%=*}|a.py" a.py 'x\n' to a.py "${comment/@/"$tag"}\nx\n"
  done
}

# The words become this header in an empty file.
gives() { writes "$1|a.py" a.py '' to a.py "$2"; }

texts() {
  local notice notices=(
    'spdx SPDX-FileCopyrightText: 2024 A' 'spdx-c SPDX-FileCopyrightText: (C) 2024 A' \
    'spdx-symbol SPDX-FileCopyrightText: © 2024 A'
    'spdx-string SPDX-FileCopyrightText: Copyright 2024 A' \
    'spdx-string-c SPDX-FileCopyrightText: Copyright (C) 2024 A'
    'spdx-string-symbol SPDX-FileCopyrightText: Copyright © 2024 A' 'string Copyright 2024 A' \
    'string-c Copyright (C) 2024 A'
    'string-symbol Copyright © 2024 A' 'symbol © 2024 A'
  )
  gives '-c|A' "# SPDX-FileCopyrightText: $(date -u +%Y) A\n"
  gives '--copyright|A|--exclude-year' '# SPDX-FileCopyrightText: A\n'
  gives '-c|A|-y|2020' '# SPDX-FileCopyrightText: 2020 A\n'
  gives '-c|A|--year|2021|-y|2019|-y|2020' '# SPDX-FileCopyrightText: 2019 - 2021 A\n'
  gives '-c|A|-c|B|-y|2024' '# SPDX-FileCopyrightText: 2024 A\n# SPDX-FileCopyrightText: 2024 B\n'
  gives '--copyright=-x|-y|2024' '# SPDX-FileCopyrightText: 2024 -x\n'
  gives '--contributor|B|--contributor|A' '# SPDX-FileContributor: A\n# SPDX-FileContributor: B\n'
  gives '-l|MIT|--license|0BSD' "# SPDX-License-Identifier: 0BSD\n# $tag"
  for notice in "${notices[@]}"; do
    gives "-c|A|-y|2024|--copyright-prefix|${notice%% *}" "# ${notice#* }\n"
  done
  gives '-c|A|-y|2024|--copyright-style|string' '# Copyright 2024 A\n'
}

# The version is that of the sources. The last line is that of a build that says nothing about a
# proof, or that of one that install.sh proved.
version_told() {
  local source version proof
  source=$(dirname "$0")/../crates/reuse_arguments/src/arguments.rt
  version=$(sed -nE 's/^([0-9]+\.[0-9]+\.[0-9]+)$/\1/p' "$source")
  run --version
  proof=$(tail -n 1 <<< "${out%$'\n'}")
  [[ $proof =~ ^proved\ by\ rattle-kit\ [0-9a-f]{16}$ ]] ||
    proof='this build says nothing about a proof'
  tells --version 0 "reuse-undo $version\njournal formats: reads 1 and 2, writes 2\n$proof\n"
  tells -V 0 "reuse-undo $version\njournal formats: reads 1 and 2, writes 2\n$proof\n"
}

# Help, and words that are refused
words() {
  local before line
  files a.py 'x\n'
  before=$(files_of "$tree")
  for line in '--help=Add licensing information' \
    'annotate|--help=Add copyright and licensing information'; do
    run "${line%=*}"
    [[ $status == 0 && $out == "${line#*=}"* && ! $error ]] || differs "$line"
  done
  version_told
  for line in 'undo|x' 'annotate|-l|MIT' 'annotate|-l|MIT|-s|none|a.py' \
    'annotate|-l|MIT|--copyright-prefix|none|a.py' 'download|MIT' show 'show|x' 'revert|-1'; do
    refuses "$line" ''
  done
  tells 'annotate|a.py' 2 'nothing to add'
  tells 'annotate|-c|A|-y|2024|--exclude-year|a.py' 2 '--year and --exclude-year'
  tells 'annotate|-c|A|-y|24|a.py' 2 'bad year: 24'
  tells 'annotate|-c| |a.py' 2 'bad text: '
  tells 'annotate|-l|MIT AND|a.py' 2 'bad licence expression at 7: MIT AND'
  tells 'annotate|-y|24|../a' 2 'bad path: ../a'
  tells 'annotate|-l|MIT|a|/a|b//c' 2 'bad path: /a'
  # Options that exclude each other, or want another one
  line='annotate|-l|MIT|a.py|'
  refuses "$line--single-line|--multi-line" 'cannot be used with'
  refuses "$line--multi-line|--single-line" 'cannot be used with'
  refuses "$line--fallback-dot-license|--skip-unrecognised" 'cannot be used with'
  refuses "$line--skip-unrecognised|--fallback-dot-license" 'cannot be used with'
  refuses 'show|1|--diff|--json' 'cannot be used with'
  refuses 'show|1|--json|--diff' 'cannot be used with'
  refuses 'forget|--all|1' 'cannot be used with'
  refuses 'forget|1|--all' 'cannot be used with'
  refuses forget 'required arguments were not provided'
  refuses "$line--style|c|--style|c" 'cannot be used multiple times'
  tells "$line--exclude-year|-y|2024" 2 '--year and --exclude-year'
  refuses "$line--texts|x" 'unexpected argument'
  refuses "$line--everywhere" 'unexpected argument'
  refuses "$line--remove-text|x" 'unexpected argument'
  refuses "$line--files-from|x" --recursive
  refuses "$line--exclude|x" --recursive
  tells "$line-r|--exclude|a\\b" 2 'bad glob: a\\b'
  refuses "$line--year" 'a value is required'
  has_just 'words that are refused' "$before"
  tells log 0 ''
}

# How a dry run is printed: in one form alone, and of a dry run alone
dry_runs() {
  local line option before
  files a.py 'x\n'
  before=$(files_of "$tree")
  for line in 'annotate|-l|MIT|a.py' 'amend|--until|2026|a.py' convert-dep5 \
    'download|--texts|.|MIT' undo redo 'revert|1'; do
    for option in --dry-run -n --check; do
      refuses "$line|$option|--diff|--json" "'--diff' cannot be used with '--json'"
      refuses "$line|--json|$option|--diff" "'--json' cannot be used with '--diff'"
    done
    for option in --diff --json; do refuses "$line|$option" '<--dry-run|--check>'; done
  done
  has_just 'dry runs that are refused' "$before"
  tells log 0 ''
}

# Words of amend that are refused: without something to be changed, with a value that can't be
# written or sought, or with an option that wants another one
amend_words() {
  local line option before
  files a.py "$tagged"
  before=$(files_of "$tree")
  run 'amend|--help'
  [[ $status == 0 && $out == 'Change the copyright and licensing information'* && ! $error ]] ||
    differs 'amend --help'
  for option in '--replace-license <OLD> <NEW>' '--remove-license <EXPR>' \
    '--replace-holder <OLD> <NEW>' '--remove-holder <HOLDER>' \
    '--replace-contributor <OLD> <NEW>' '--remove-contributor <TEXT>' '--until <YEAR>' \
    '--copyright-prefix <NAME>' '--holder <HOLDER>' '--remove-text <FILE>' --remove-header \
    --everywhere '-s, --style <NAME>' \
    '-r, --recursive' \
    '--files-from <FILE>' '--exclude <GLOB>' '-n, --dry-run' --check --diff --json; do
    [[ $out == *" $option "* || $out == *" $option"$'\n'* ]] ||
      differs "help of amend without $option"
  done
  for line in 'a.py' '-r|.' 'a.py|--dry-run' '-s|python|a.py' '--everywhere|a.py'; do
    tells "amend|$line" 2 'nothing to amend'
  done
  for line in '--holder|A|a.py' '--holder|A|--remove-holder|B|a.py'; do
    refuses "amend|$line" '--until <YEAR>'
  done
  for line in '--replace-license|MIT' '--replace-holder|A' '--replace-contributor|A'; do
    refuses "amend|$line" 'values required'
  done
  refuses 'amend|--until|2026' PATH
  refuses 'amend|--until|2026|--until|2027|a.py' 'cannot be used multiple times'
  refuses 'amend|--copyright-prefix|none|a.py' 'invalid value'
  refuses 'amend|--until|2026|--style|none|a.py' 'invalid value'
  refuses 'amend|--until|2026|--style|c|--everywhere|a.py' 'cannot be used with'
  refuses 'amend|--until|2026|--everywhere|-s|c|a.py' 'cannot be used with'
  refuses 'amend|--until|2026|--everywhere|--everywhere|a.py' 'cannot be used multiple times'
  refuses 'amend|--remove-text|x|--everywhere|a.py' 'cannot be used with'
  for option in --everywhere '--until|2026' '--replace-holder|A|B' '--remove-text|x'; do
    refuses "amend|$option|--remove-header|a.py" 'cannot be used with'
    refuses "amend|--remove-header|$option|a.py" 'cannot be used with'
  done
  refuses 'amend|--until|2026|--exclude|x|a.py' --recursive
  refuses 'amend|--until|2026|--files-from|x|a.py' --recursive
  refuses 'amend|--until|2026|--force-dot-license|a.py' 'unexpected argument'
  tells 'amend|--replace-license|MIT|ISC AND|a.py' 2 'bad licence expression at 7: ISC AND'
  tells 'amend|--replace-license|MIT||a.py' 2 'bad licence expression at 0: '
  for option in license holder contributor; do
    tells "amend|--replace-$option| |ISC|a.py" 2 'bad text: '
    tells "amend|--remove-$option||a.py" 2 'bad text: '
  done
  tells $'amend|--replace-holder|A|\t|a.py' 2 'bad text: \t'
  tells 'amend|--replace-contributor|A|REUSE-IgnoreStart|a.py' 2 'bad text: REUSE-IgnoreStart'
  tells 'amend|--until|2026|--holder| |a.py' 2 'bad text: '
  tells 'amend|--until|26|a.py' 2 'bad year: 26'
  tells 'amend|--until|26|--remove-holder||a.py' 2 'bad text: '
  tells 'amend|--until|26|../a' 2 'bad path: ../a'
  tells 'amend|--until|26|-r|--exclude|a\b|.' 2 'bad year: 26'
  tells 'amend|--until|2026|-r|--exclude|a\b|.' 2 'bad glob: a\\b'
  has_just 'words of amend that are refused' "$before"
}

# The place that a word names
place_words() {
  local word place before=(a.py 'x\n' a/b 'x\n' a/..b 'x\n')
  while IFS='|' read -r word place; do
    case $place in
      none) stays "-s|python|-l|MIT|$word" 2 "bad path: $word" "${before[@]}" ;;
      .) stays "-s|python|-l|MIT|$word" 1 '.: is a folder' "${before[@]}" ;;
      *) writes "-s|python|-l|MIT|$word" "${before[@]}" to "$place" "$tagged" ;;
    esac
  done < <(printf '%s\n' 'a.py|a.py' './a.py|a.py' './a/./b/|a/b' 'a.py/|a.py' '.|.' './|.' \
    './.|.' 'a/..b|a/..b' \
    '|none' '/|none' './/|none' 'a//|none' 'a//b|none' 'a/..|none' '../a|none' "$tree/a.py|none")
}

for group in settings texts words dry_runs amend_words place_words; do $group; done
tell_counts
