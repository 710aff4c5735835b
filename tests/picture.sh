#!/usr/bin/env bash
# The picture of the README is what the program prints today, but for the date in the log.
# usage: tests/picture.sh PROGRAM
set -euo pipefail
. "$(dirname "$0")/common.sh"
docs=$(dirname "$0")/../docs
without_date() { sed -E 's/[0-9]{4}-[0-9]{2}-[0-9]{2}/DATE/' "$1"; }
"$docs/make_picture.sh" "$program" > "$room/picture.svg"
cmp <(without_date "$room/picture.svg") <(without_date "$docs/picture.svg") ||
  fail 'make the picture again: docs/make_picture.sh PROGRAM > docs/picture.svg'
echo 'the picture is what the program prints'
