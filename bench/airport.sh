#!/usr/bin/env bash
# Plans days of bench/airport_day by `crew day`, each with a budget of nodes and a limit of seconds of the processor, and gives each
# dossier to `crew check`. Prints for each day what its plan leaves unassigned, its bound, its splits, those without a shown cause,
# and the seconds of `day`; of a day that is cut off the seconds alone. With words: only these sizes, as 18x110. NODES, SECONDS_EACH
# and SEEDS of the environment change the budget, the limit and the days, as SEEDS='0 6'; CREW tells the path of a program that is
# built already, as that of a model.
set -eu
here=$(cd "$(dirname "${BASH_SOURCE[0]}")" && pwd)
. "$here/timing.sh"
crew=$(built "$here")
nodes=${NODES:-400}
limit=${SECONDS_EACH:-60}
read -ra seeds <<<"${SEEDS:-$(seq -s ' ' 0 9)}"
sizes=("$@")
if [ $# -eq 0 ]; then sizes=(18x110); fi
TIMEFORMAT=%U
at=$(mktemp -d)
trap 'rm -rf "$at"' EXIT

# limited COMMAND..: the command, which is ended after so many seconds of the processor
limited() {
  (ulimit -t "$limit" && exec "$@")
}

# one SEED TEAMS TASKS: the seconds, and the yes line of a day that is not cut off
one() {
  local seconds status
  "$here/airport_day" "$@" "$nodes" >"$at/day"
  seconds=$({ time limited "$crew" day <"$at/day" >"$at/dossier" 2>/dev/null; } 2>&1) && status=0 || status=$?
  echo "${seconds##*$'\n'} $([ "$status" = 0 ] || [ "$status" = 7 ] && "$crew" check <"$at/dossier")"
}

# The words of a line: the seconds, and from word 2 on the yes line.
for size in "${sizes[@]}"; do
  for seed in "${seeds[@]}"; do
    one "$seed" "${size%x*}" "${size#*x}" | awk -v day="$size seed $seed, $nodes nodes" '
      $2 == "yes" { printf "%s: unassigned %d, bound %d, splits %d, unshown %d, %.1f s, %s\n",
        day, $4, $6, $8, $14, $1, $4 == $6 ? "proved" : "open"; next }
      { printf "%s: cut off after %.1f s\n", day, $1 }'
  done
done
