#!/usr/bin/env bash
# What minute prices are worth: plans the generated days 0 to 9 of each size by `crew day` with a budget of one node, and prices
# the instance of each by `crew squeeze` in 1,000 steps. Prints the bounds that both prove, on how many days each of them is the
# greater one, and the seconds of a processor that `squeeze` takes. With words: only these sizes, as 8x40. STEPS of the environment
# changes the steps.
set -eu
here=$(cd "$(dirname "${BASH_SOURCE[0]}")" && pwd)
. "$here/timing.sh"
crew=$(built "$here")
steps=${STEPS:-1000}
sizes=("$@")
if [ $# -eq 0 ]; then sizes=(4x15 6x25 8x40 10x50 12x70 15x90 20x120); fi
TIMEFORMAT=%U
dossier=$(mktemp)
sheet=$(mktemp)
trap 'rm -f "$dossier" "$sheet"' EXIT

# one NUMBER TEAMS TASKS: what the plan leaves, the two bounds, and the seconds of a processor of a price run
one() {
  local seconds
  "$here/generated_day" "$@" 1 | { "$crew" day >"$dossier" || [ $? = 7 ]; }
  seconds=$({ time "$crew" squeeze "$steps" <"$dossier" >"$sheet"; } 2>&1)
  echo "$("$crew" check <"$dossier") $(grep -m 1 '^bound ' "$sheet") ${seconds##*$'\n'}"
}

# The words of a line: those of the yes line, of which the third and the fifth are numbers, then the sheet's bound and the seconds.
for size in "${sizes[@]}"; do
  for number in $(seq 0 9); do
    one "$number" "${size%x*}" "${size#*x}"
  done | awk -v size="$size" -v steps="$steps" '
    { unassigned += $3; root += $5; minutes += $(NF - 1); seconds += $NF; if ($NF > slowest) slowest = $NF
      more += $(NF - 1) > $5; less += $(NF - 1) < $5 }
    END { printf "%s, %d steps: unassigned %.1f, bound of the root %.1f, of minute prices %.1f each; greater on %d of %d days, less on %d; %.2f s each, at most %.2f s\n",
      size, steps, unassigned / NR, root / NR, minutes / NR, more, NR, less, seconds / NR, slowest }'
done
