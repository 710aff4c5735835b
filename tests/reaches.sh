#!/usr/bin/env bash
# What the program can call of the C library: nothing of sockets, threads or other processes, for
# which it has no handle. `rt ci` looks at this too, but neither `rt check` nor `rt test` does.
# Prints how many names it can call.
# usage: tests/reaches.sh PROGRAM
set -euo pipefail
. "$(dirname "$0")/common.sh"
wants nm binutils
sockets='epoll_\w+|eventfd|socket|socketpair|bind|connect|listen|accept4?|getaddrinfo|getnameinfo'
sockets+='|gethostby\w+|(send|recv)(to|from|msg)?'
threads='pthread_create|thrd_create'
processes='posix_spawn\w*|fork|vfork|clone3?|execv\w*|execl\w*|fexecve|system|popen'
processes+='|wait(pid|id|[34])?'

nm -D --undefined-only "$program" | sed -E 's/.* ([^ @]+).*/\1/' > "$room/names"
grep -qx write "$room/names" || fail "the program can't write, so its names were not read"
if grep -xE "$sockets|$threads|$processes" "$room/names"; then fail "the program can call these"; fi
echo "$(wc -l < "$room/names") names, none of sockets, threads or processes"
