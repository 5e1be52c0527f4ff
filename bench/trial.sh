#!/usr/bin/env bash
# Plans the generated days 0 to 9 of each size by `crew trial`, each with a budget of nodes and a limit of seconds, and
# prints how many of the ten are proved, what they leave unassigned, their splits, those without a shown cause, and the
# seconds. With words: only these sizes, as 8x40. NODES and SECONDS_EACH of the environment change the budget and the limit.
set -eu
here=$(cd "$(dirname "${BASH_SOURCE[0]}")" && pwd)
. "$here/timing.sh"
crew=$(built "$here")
nodes=${NODES:-1000}
limit=${SECONDS_EACH:-60}
sizes=("$@")
if [ $# -eq 0 ]; then sizes=(4x15 6x25 8x40 10x50 12x70 15x90 20x120 30x200 40x300 64x400); fi
TIMEFORMAT=%R

# one DAY TEAMS TASKS: the line of a day, its status and its seconds, as one line; that of a day that is cut off has no counts
one() {
  local seconds status line
  line=$(mktemp)
  seconds=$({ time timeout "$limit" "$crew" trial "$@" "$nodes" >"$line" 2>/dev/null; } 2>&1) && status=0 || status=$?
  seconds=${seconds##*$'\n'}
  echo "$status $seconds $(cat "$line")"
  rm "$line"
}

# The words of a line: its status, its seconds, and from word 3 on the line of the trial.
for size in "${sizes[@]}"; do
  for day in $(seq 0 9); do
    one "$day" "${size%x*}" "${size#*x}"
  done | awk -v size="$size" -v nodes="$nodes" '
    { seconds += $2; if ($2 > slowest) slowest = $2 }
    $1 == 0 || $1 == 7 { proved += $1 == 0; told++; unassigned += $8; splits += $12; closed += $14; unshown += $18 }
    END { printf "%s, %d nodes: %d of %d proved; %d cut off; unassigned %.1f, splits %.1f, closed %.1f, unshown %.1f each; %.2f s each, at most %.2f s\n",
      size, nodes, proved, NR, NR - told, unassigned / (told ? told : 1), splits / (told ? told : 1), closed / (told ? told : 1),
      unshown / (told ? told : 1), seconds / NR, slowest }'
done
