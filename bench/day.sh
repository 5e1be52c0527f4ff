#!/usr/bin/env bash
# Plans the generated days 0 to 9 of each size by `crew day`, each with a budget of nodes and a limit of seconds, gives each
# dossier to `crew check`, and prints how many of the ten are proved, what they leave unassigned, their splits, those without a
# shown cause, and the seconds of `day`. With words: only these sizes, as 8x40. NODES and SECONDS_EACH of the environment
# change the budget and the limit, and DAYS the program that makes the days: `DAYS=airport_day bench/day.sh 18x110`.
set -eu
here=$(cd "$(dirname "${BASH_SOURCE[0]}")" && pwd)
. "$here/timing.sh"
crew=$(built "$here")
nodes=${NODES:-400}
limit=${SECONDS_EACH:-60}
days=${DAYS:-generated_day}
sizes=("$@")
if [ $# -eq 0 ]; then sizes=(4x15 6x25 8x40 10x50 12x70 15x90 20x120 30x200 40x300 64x400); fi
TIMEFORMAT=%R
day=$(mktemp)
dossier=$(mktemp)
trap 'rm -f "$day" "$dossier"' EXIT

# one NUMBER TEAMS TASKS: the status and the seconds of a day, and its yes line, which a day that is cut off has not
one() {
  local seconds status
  "$here/$days" "$@" "$nodes" >"$day"
  seconds=$({ time timeout "$limit" "$crew" day <"$day" >"$dossier" 2>/dev/null; } 2>&1) && status=0 || status=$?
  seconds=${seconds##*$'\n'}
  if [ "$status" = 0 ] || [ "$status" = 7 ]; then
    echo "$status $seconds $("$crew" check <"$dossier")"
  else
    echo "$status $seconds"
  fi
}

# The words of a line: its status, its seconds, and from word 3 on the yes line.
for size in "${sizes[@]}"; do
  for number in $(seq 0 9); do
    one "$number" "${size%x*}" "${size#*x}"
  done | awk -v size="$size" -v nodes="$nodes" '
    { seconds += $2; if ($2 > slowest) slowest = $2 }
    $3 == "yes" { proved += $5 == $7; told++; unassigned += $5; splits += $9; unshown += $15 }
    END { printf "%s, %d nodes: %d of %d proved, %d cut off; unassigned %.1f, splits %.1f, unshown %.1f each; %.2f s each, at most %.2f s\n",
      size, nodes, proved, NR, NR - told, unassigned / (told ? told : 1), splits / (told ? told : 1), unshown / (told ? told : 1),
      seconds / NR, slowest }'
done
