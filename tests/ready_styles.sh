#!/usr/bin/env bash
# Gives a tree all ready styles and comments, as `styles --all` prints them, and files of each ready
# name: with LF and CR LF, empty, without an end of line, with a mark, and with the lines in front that
# the name's comment leaves there, such as front matter. Annotate must make of each what the rules say,
# told once more (random_styles/headers.py): a header, of another holder in the same header, with
# `--merge-copyrights` one notice of a holder, with `--no-replace` a further header. The same call
# again changes nothing, and undo gives the first bytes back. Comments with both forms are written in
# both. Ends with status 1 at the first fault.
# usage: tests/ready_styles.sh PROGRAM
set -euo pipefail
. "$(dirname "$0")/common.sh"
wants python3 python3
export PYTHONDONTWRITEBYTECODE=1
python3 "$(dirname "$0")/random_styles/ready.py" "$program" "$room"
