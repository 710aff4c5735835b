#!/usr/bin/env bash
# Edits a file of a tree of 300 while a call writes the tree, on a real disk: by an append, by a save
# that renames a new file, by a removal, and by a new file at a path that the call is about to make.
# The calls are annotate, undo, redo, revert, amend, download, and an opening that rolls a killed run
# back. Each edit must be on the disk afterwards, whatever the call's status is; and from every state
# `log`, `recover` or `recover --skip-moved` leads on. Prints how many calls were interrupted. Ends
# with status 1 if an edit is lost.
# usage: tests/lost_edits.sh PROGRAM [ROUNDS]
# ROUNDS: how often each call meets each edit (40).
# The tags below are data: REUSE-IgnoreStart
set -euo pipefail
. "$(dirname "$0")/common.sh"
wants python3 python3
# Not on the memory's file system: there the window is too short.
rm -rf "$room"
room=$(mktemp -d "${TMPDIR:-/var/tmp}/lost_edits.XXXXXX")
python3 "$(dirname "$0")/lost_edits/rounds.py" "$program" "$room" "${2:-40}"
