#!/usr/bin/env bash
# Runs every script of this folder that takes the built program. Prints of each whether it passed,
# its last line and how long it took. A script that ends with status 77 can't be run here, as its
# last line says, and counts as skipped. Missing Debian packages are named first and last, with the
# line that installs them. Of a script that fails the last lines are printed, and the status is 1.
# ROUNDS: how often the scripts try that go by chance (40). LIMIT: the seconds after which a script
# fails that hasn't ended (1200). MAY_SKIP: the scripts that may be skipped. If it is set, the
# status is 1 if any other is.
# usage: tests/all.sh [PROGRAM]     (by default what rt ci or rt run leave in crates/reuse_undo/out)
#        tests/all.sh --packages    prints the missing packages, and runs nothing
set -euo pipefail
PATH=$PATH:/usr/sbin:/sbin
top=$(cd "$(dirname "$0")/.." && pwd)
program=$(realpath -m -- "${1:-$top/crates/reuse_undo/out/reuse_undo}")
cd "$top/tests"
rounds=${ROUNDS:-40}
limit=${LIMIT:-1200}
takes_program='^# usage: .* PROGRAM'
mapfile -t scripts < <(grep -lE "$takes_program" *.sh | grep -vx all.sh)

missing=()
while read -r command package; do
  command -v "$command" > /dev/null || missing+=("$package")
done < <(sed -nE 's/^wants (\S+) (\S+)$/\1 \2/p' "${scripts[@]}" | sort -u)
if [[ ${1:-} == --packages ]]; then
  echo "${missing[*]}"
  exit
fi
if [[ ! -x $program ]]; then
  echo "no program at $program; in crates/reuse_undo, rt run -- --version builds it" >&2
  exit 2
fi
tell_missing() {
  ((${#missing[@]} == 0)) || echo "scripts are skipped without these: apt-get install ${missing[*]}"
}
tell_missing
mapfile -t others < <(grep -LE "$takes_program" *.sh | grep -vxE '(all|blocks|common)\.sh')
echo "not run here, since they don't take the program: ${others[*]}"

log=$(mktemp)
running=
trap '[[ -z $running ]] || kill "$running" 2> /dev/null; rm -f "$log"' EXIT
trap 'exit 130' INT TERM
passed=0 failed=0 skipped=0 left_out=()
for script in "${scripts[@]}"; do
  start=$SECONDS
  arguments=("$program")
  ! grep -qE "$takes_program \[ROUNDS\]" "$script" || arguments+=("$rounds")
  status=0
  timeout -k 10 "$limit" "./$script" "${arguments[@]}" > "$log" 2>&1 < /dev/null &
  running=$!
  wait "$running" || status=$?
  running=
  case $status in
    0) result=passed passed=$((passed + 1)) ;;
    77)
      result=skipped skipped=$((skipped + 1))
      [[ " ${MAY_SKIP-$script} " == *" $script "* ]] || left_out+=("$script")
      ;;
    124 | 137) result="FAILED, not ended after $limit s" failed=$((failed + 1)) ;;
    *) result=FAILED failed=$((failed + 1)) ;;
  esac
  echo "$script $result: $(tail -n 1 "$log") ($((SECONDS - start)) s)"
  case $status in 0 | 77) ;; *) tail -n 20 "$log" | sed 's/^/    /' ;; esac
done
tell_missing
((${#left_out[@]} == 0)) || echo "skipped, and mayn't be: ${left_out[*]}"
echo "$passed passed, $failed failed, $skipped skipped, of ${#scripts[@]} scripts in $SECONDS s"
((failed == 0 && ${#left_out[@]} == 0))
