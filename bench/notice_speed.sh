#!/usr/bin/env bash
# Reads the tags of header blocks of 4, 8 and 16 MiB, and merges their 100,000, 200,000 and 400,000
# notices. Prints seconds and the ratios, which are near 2 where the work is linear (but for the
# sorts).
# usage: bench/notice_speed.sh
set -euo pipefail
. "$(dirname "$0")/build.sh" notice_speed reuse_text reuse_notice

"$program" 100000 200000 400000 |
  awk '{ print $1 " notices, " $2 " bytes: read " $4 " s, merged to " $3 " in " $5 " s" }
    { read[NR] = $4; merge[NR] = $5 }
    NR > 1 && read[NR - 1] > 0 && merge[NR - 1] > 0 {
      printf "twice as many: read %.2f times as long, merge %.2f times\n",
        read[NR] / read[NR - 1], merge[NR] / merge[NR - 1] }'
