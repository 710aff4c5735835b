#!/usr/bin/env bash
# Passes all tests, in this order:
# - the gate, `rt ci`: every proof, every must-fail edit and the program's run, from nothing;
# - beside it the tests of calls (tests/calls.sh), which are compiled without proof;
# - once the gate has passed, every wrong body (tests/wrong_bodies.sh), also those it doesn't try;
# - beside them the scripts of tests/ that take the program (tests/all.sh), on what the gate built.
# Ends with the gate's status if that isn't 0, and with 1 if a test of calls or a script fails, or a
# wrong body isn't refused by a goal.
# A script that can't be run here, for want of a Debian package or of root, counts as skipped.
# MAY_SKIP: the scripts that may be skipped. If it is set, any other that is skipped fails.
# DEADLINE: the time, in seconds since 1970, at which the wrong bodies have to end; what they leave
# out for that is named, and counts as a skip of wrong_bodies.sh.
# RT_JOBS: how many checks run side by side. ROUNDS: how often the scripts try that go by chance.
# usage: ./test.sh
set -euo pipefail
cd "$(dirname "$0")"
(($# == 0)) || { sed -n '/^# usage/s/^# //p' "$0" >&2; exit 2; }
if ! command -v rt > /dev/null; then
    echo "The Rattle kit isn't there: no command rt. Without it only the scripts can be run, on a" \
        "program that was built elsewhere: tests/all.sh PROGRAM" >&2
    exit 1
fi
room=$(mktemp -d)
beside=
trap '[ -z "$beside" ] || kill "$beside" 2> /dev/null; rm -rf "$room"' EXIT
: > "$room/begun"

tests/calls.sh > "$room/calls" 2>&1 &
beside=$!
# As many checks side by side as there are processors, and 5 GB of free memory for each: most take
# 1 to 4, the largest 6 for a while. Left to itself, rt reckons with three times as much for the
# largest crates, and tries them one after the other.
lanes=$(nproc)
memory=$(awk '/^MemAvailable:/ { print int($2 / 5000000) }' /proc/meminfo)
((lanes <= memory)) || lanes=$((memory > 1 ? memory : 1))
export RT_JOBS="${RT_JOBS:-$lanes}"
gate=0
rt ci || gate=$?
took=$((SECONDS / 60)):$(printf %02d $((SECONDS % 60)))
[ $gate = 0 ] && gate_said=passed || gate_said="FAILED with status $gate"

called=0
wait $beside || called=$?
beside=
sed 's/^/tests of calls: /' "$room/calls"
[ $called = 0 ] && calls_said=passed || calls_said=FAILED

# With a DEADLINE the wrong bodies end then.
limit=()
[ -z "${DEADLINE:-}" ] || limit=(timeout -k 10 "$((DEADLINE - $(date +%s)))")
if [ $gate = 0 ]; then
    # (behind the scripts, of which some go by time)
    "${limit[@]}" nice -n 19 tests/wrong_bodies.sh -g > "$room/wrong" 2>&1 &
    beside=$!
fi

# The gate leaves the program that it built here, and has set aside what was here before.
program=crates/reuse_undo/out/reuse_undo
scripts=0
if [ -x "$program" ] && [ "$program" -nt "$room/begun" ]; then
    tests/all.sh "$program" | tee "$room/scripts" || scripts=$?
    scripts_said=$(tail -n 1 "$room/scripts")
else
    scripts=1
    scripts_said='not run, since the gate built no program'
fi

wrong=0
wrong_said='not tried, since the gate failed'
if [ -n "$beside" ]; then
    wait "$beside" || wrong=$?
    beside=
    cat "$room/wrong"
    wrong_said="$(tail -n 1 "$room/wrong"), after $((SECONDS / 60)) minutes"
    # (timeout ends with 124, with 137 where it had to kill, and with 125 where no time was left)
    if [ ${#limit[@]} != 0 ] && [[ $wrong = 12[45] || $wrong = 137 ]]; then
        wrong_said='not all tried, since no time was left'
        if [[ " ${MAY_SKIP-wrong_bodies.sh} " = *' wrong_bodies.sh '* ]] &&
            ! grep -qE 'NOT REFUSED|ONLY BY A NAME|BAD EDIT|NOT TRIED' "$room/wrong"; then
            wrong=0
        fi
    fi
fi

echo
echo "the gate (rt ci): $gate_said, after $took minutes"
echo "the tests of calls (tests/calls.sh): $calls_said"
echo "the wrong bodies (tests/wrong_bodies.sh): $wrong_said"
echo "the scripts (tests/all.sh): $scripts_said"
if [ $gate != 0 ]; then exit $gate; fi
[ $called = 0 ] && [ $wrong = 0 ] && [ $scripts = 0 ]
