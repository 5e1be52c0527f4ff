#!/usr/bin/env bash
# How far plans stay: plans the disrupted days 1 to 10 of bench/airport_day of each size by `crew day`, nine rounds each, and counts by
# bench/stays how many jobs are kept in the round behind theirs, with start and teams, of those that had not begun and whose task
# was not changed. Prints for each day these two numbers, what each round leaves open, and the seconds of a processor; and behind the
# days of a size the sum. With words: only these sizes, as 18x110. Of the environment NODES changes the budget of a round (1), and
# SEEDS the days. CREW tells the path of a program that is built already; OTHER that of another one, of which the same is told, and
# in how many rounds it leaves fewer open.
set -eu
here=$(cd "$(dirname "${BASH_SOURCE[0]}")" && pwd)
. "$here/timing.sh"
crew=$(built "$here")
nodes=${NODES:-1}
read -ra seeds <<<"${SEEDS:-$(seq -s ' ' 1 10)}"
sizes=("$@")
if [ $# -eq 0 ]; then sizes=(18x110); fi
TIMEFORMAT=%U
at=$(mktemp -d)
trap 'rm -rf "$at"' EXIT

# one PROGRAM: of the day that lies there the jobs that are kept, of how many, the seconds, and what each round leaves open
one() {
  local seconds
  seconds=$({ time { "$1" day <"$at/day" >"$at/dossiers" 2>/dev/null || [ $? = 7 ]; }; } 2>&1)
  "$here/stays" "$at/day" "$at/dossiers" | awk -v seconds="$seconds" '
    $1 == "round" { sub(",", "", $4); open = open " " $4 }
    $1 == "kept" { print $2, $4, seconds open }'
}

# tell TITLE: such a line in words
tell() {
  awk -v title="$1" '{ printf "%s: kept %d of %d, %.2f s; open", title, $1, $2, $3; for (i = 4; i <= NF; i++) printf " %d", $i; print "" }'
}

# sum TITLE FILE: the sum of such lines
sum() {
  awk -v title="$1" '{ kept += $1; all += $2; seconds += $3 }
    END { printf "%s: kept %d of %d, %.1f in a hundred, %.2f s each\n", title, kept, all, all ? 100 * kept / all : 0, seconds / NR }' "$2"
}

for size in "${sizes[@]}"; do
  : >"$at/lines"
  : >"$at/others"
  for seed in "${seeds[@]}"; do
    "$here/airport_day" "$seed" "${size%x*}" "${size#*x}" "$nodes" disrupted >"$at/day"
    one "$crew" | tee -a "$at/lines" | tell "$size day $seed"
    if [ -n "$other" ]; then one "$other" | tee -a "$at/others" | tell "$size day $seed, the other"; fi
  done
  sum "$size" "$at/lines"
  if [ -n "$other" ]; then
    sum "$size, the other" "$at/others"
    paste -d ' ' "$at/lines" "$at/others" | awk '{ n = NF / 2; for (i = 4; i <= n; i++) { rounds++; fewer += $(n + i) < $i } }
      END { printf "the other leaves fewer open in %d of %d rounds\n", fewer, rounds }'
  fi
done
