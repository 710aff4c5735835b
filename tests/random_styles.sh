#!/usr/bin/env bash
# Gives trees random comment styles of their own: of comments on single lines, over several, or both,
# with first lines and front matter, 250 in a tree. Each style has a file of random text: comments of
# it and of others, what looks like its marks, tags in code, CR LF, CR, a mark, no end of line. Where
# the program knows rules, half of the files get their style by a rule. Annotate must make of each file
# what the rules say, told once more (random_styles/headers.py), by dry runs too: a header, of another
# holder in the same header, of `--no-replace` a further one. The same call again changes nothing, all
# outside of the header keeps its bytes, and undo gives the first bytes back. Random bad styles are
# refused by their name and the reason. Prints how many there were; ends with status 1 at the first
# fault.
# SEED: the number of the first round (1).
# usage: tests/random_styles.sh PROGRAM [ROUNDS]
# ROUNDS: how many trees, with 13 bad styles each (40, which are 10,000 styles).
set -euo pipefail
. "$(dirname "$0")/common.sh"
wants python3 python3
export PYTHONDONTWRITEBYTECODE=1
python3 "$(dirname "$0")/random_styles/rounds.py" "$program" "$room" "${2:-40}" "${SEED:-1}"
