#!/usr/bin/env bash
# Looks for the header block, and annotates, in texts of 8 and 16 MiB that are made to be slow: one
# line, CR or LF alone, comments that nothing closes, texts that nearly are barriers, and header
# blocks of 167,000 and 335,000 notices, also merged. Prints seconds and the ratios, which are near
# 2 where the work is linear.
# usage: bench/hostile_headers.sh
set -euo pipefail
. "$(dirname "$0")/build.sh" hostile_headers reuse_text reuse_notice reuse_amend reuse_style reuse_header

"$program" 8388608 16777216 |
  awk '{ print $1 ", " $2 " bytes: found " $3 ", written " $4 ": find " $5 " s, annotate " $6 " s" }
    ($1 in find) && find[$1] > 0 && write[$1] > 0 {
      printf "%s, twice as many: find %.2f times as long, annotate %.2f times\n",
        $1, $5 / find[$1], $6 / write[$1] }
    { find[$1] = $5; write[$1] = $6 }'
