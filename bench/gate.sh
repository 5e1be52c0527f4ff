#!/usr/bin/env bash
# Makes the table of what the gate costs from nothing: the processor minutes of each crate's proof, of its tests' proof
# and of its must-fail edits. It runs `rt ci` from nothing and looks each second at what the prover's processes have used.
set -eu
cd "$(dirname "${BASH_SOURCE[0]}")/.."
made=$(mktemp -d)
trap 'rm -r "$made"' EXIT

# one line for each process of the prover in this session: process, seconds so far, crate, what is proved
look() {
  ps -o pid=,cputimes=,args= -s "$1" | while read -r process seconds program words; do
    [[ $program == */rattle && $words =~ --crate-name\ ([a-z0-9_]+) ]] || continue
    crate=${BASH_REMATCH[1]} kind=proof
    if [[ $words == *' --test'* ]]; then kind=tests; fi
    if [[ $(readlink "/proc/$process/cwd") == */rt-edit-* ]]; then kind=edits; fi
    echo "$process $seconds $crate $kind"
  done
}

# kits that keep proofs between runs have a flag that proves all anew
anew=()
if rt help | grep -q -e '--anew'; then anew=(--anew); fi

setsid rt ci "${anew[@]}" >"$made/log" 2>&1 &
gate=$!
while kill -0 $gate 2>/dev/null; do
  look $gate >>"$made/seen" || true
  sleep 1
done
status=0
wait $gate || status=$?
tail -n 1 "$made/log"

# the last look at a process counts; a number that has fewer seconds than before is another process's
awk '
  {
    what = $3 " " $4; key = $1 " " what; crates[$3]
    if ($2 < last[key]) used[what] += last[key]
    last[key] = $2
  }
  END {
    for (key in last) { split(key, part); used[part[2] " " part[3]] += last[key] }
    for (it in crates) {
      proof = used[it " proof"] / 60; tests = used[it " tests"] / 60; edits = used[it " edits"] / 60
      printf "| `%s` | %.1f | %.1f | %.1f | %.1f |\n", it, proof, tests, edits, proof + tests + edits
    }
  }' "$made/seen" | sort -t '|' -k 6 -rn >"$made/rows"
echo '| Crate | proof | tests | edits | minutes |'
echo '|---|---|---|---|---|'
cat "$made/rows"
awk -F '|' '{ for (n = 3; n < 7; n++) sum[n] += $n } END { printf "| all | %.1f | %.1f | %.1f | %.1f |\n", sum[3], sum[4], sum[5], sum[6] }' "$made/rows"
echo 'Processor time of the whole run, with the compiler and the tests themselves (user, system):'
times | tail -n 1
exit $status
