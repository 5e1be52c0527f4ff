#!/usr/bin/env bash
# How long sheets of the largest size take: the generated days with these numbers (without words 0 and 1), of 64 teams and 400
# tasks, each task with a window of 720 minutes and LONGER times its own duration. `crew squeeze` writes a sheet of the day after
# STEPS steps, and `crew squeeze-check` reads it. Prints the sheet's bytes, the seconds of a processor that each takes, and what
# the check said. LONGER and STEPS are of the environment, or 4 and 20: with durations as they are all tasks can be done, and
# the best prices are those before the first step.
set -eu
here=$(cd "$(dirname "${BASH_SOURCE[0]}")" && pwd)
. "$here/timing.sh"
crew=$(built "$here")
steps=${STEPS:-20}
longer=${LONGER:-4}
numbers=("$@")
if [ $# -eq 0 ]; then numbers=(0 1); fi
TIMEFORMAT=%U
dossier=$(mktemp)
sheet=$(mktemp)
said=$(mktemp)
trap 'rm -f "$dossier" "$sheet" "$said"' EXIT

# wide NUMBER: the day's records, with the windows and durations of above
wide() {
  "$here/generated_day" "$1" 64 400 0 | awk -F, -v OFS=, -v longer="$longer" '
    $1 == "task" {
      split($4, at, ":")
      latest = 60 * at[1] + at[2] + 720
      $5 = sprintf("%02d:%02d", latest / 60, latest % 60)
      $6 *= longer
    }
    { print }'
}

for number in "${numbers[@]}"; do
  # a dossier whose plan leaves all tasks unassigned: `squeeze` asks for its instance alone
  {
    echo "crew dossier 1"
    wide "$number" | "$crew" apply
    printf 'pool 0 0\nplan 400 0\ntree 0 0 1 0\nleaf bare\nend\n'
  } >"$dossier"
  writes=$({ time "$crew" squeeze "$steps" <"$dossier" >"$sheet"; } 2>&1)
  reads=$({ time "$crew" squeeze-check <"$sheet" >"$said"; } 2>&1)
  echo "day $number, 64x400, $steps steps: $(wc -c <"$sheet") bytes, squeeze ${writes##*$'\n'} s," \
    "squeeze-check ${reads##*$'\n'} s: $(cat "$said")"
done
