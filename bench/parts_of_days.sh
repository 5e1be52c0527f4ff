#!/usr/bin/env bash
# What is proved where a day is parted: plans the days 0 to 19 of bench/airport_day of each size by `crew day`, gives each dossier
# to `crew parts`, and its bundle to `crew parts-check`, which has to say yes. Prints for each day what the plan leaves unassigned;
# the bound of the dossier and that of the bundle, each with its splits (of all parts together) and the seconds of a processor; how
# many parts there are; and whether the bundle's bound is what the plan leaves. Behind the days of a size it prints on how many of
# them each of the two bounds is. With words: only these sizes, as 18x110. Of the environment NODES and PART_NODES change the
# budgets of a day and of each part (50 and 400), SECONDS_EACH the limit by the clock of each of the two commands (600), and SEEDS
# the days, as SEEDS='0 7'. CREW and PARTS tell the paths of the programs crew and crew_parts, where they are built already.
set -eu
here=$(cd "$(dirname "${BASH_SOURCE[0]}")" && pwd)
. "$here/timing.sh"
crew=$(built "$here")
parts=${PARTS:-}
if [ -z "$parts" ]; then
  "$here/../bin/crew" parts 0 <"$here/../examples/first.dossier" >/dev/null
  parts="$here/../crates/crew_parts/out/crew_parts"
fi
nodes=${NODES:-50}
part_nodes=${PART_NODES:-400}
limit=${SECONDS_EACH:-600}
read -ra seeds <<<"${SEEDS:-$(seq -s ' ' 0 19)}"
sizes=("$@")
if [ $# -eq 0 ]; then sizes=(18x110); fi
TIMEFORMAT=%U
at=$(mktemp -d)
trap 'rm -rf "$at"' EXIT

# timed INPUT OUTPUT COMMAND..: the seconds of a command that ends with 0 or 7 within the limit
timed() {
  local input=$1 output=$2 seconds status
  shift 2
  seconds=$({ time timeout "$limit" "$@" <"$input" >"$output" 2>/dev/null; } 2>&1) && status=0 || status=$?
  [ "$status" = 0 ] || [ "$status" = 7 ] || return 1
  echo "${seconds##*$'\n'}"
}

# one NUMBER TEAMS TASKS: the number; unassigned, bound, splits and seconds of the dossier; and bound, parts, splits and seconds of
# the bundle. Those of a command that is cut off are not there
one() {
  local day_seconds parts_seconds yes said splits
  "$here/airport_day" "$@" "$nodes" >"$at/day"
  day_seconds=$(timed "$at/day" "$at/dossier" "$crew" day) || { echo "$1" && return; }
  yes=$("$crew" check <"$at/dossier" | awk '{ print $3, $5, $7 }')
  parts_seconds=$(timed "$at/dossier" "$at/bundle" "$parts" parts "$part_nodes") || { echo "$1 $yes $day_seconds" && return; }
  said=$("$parts" parts-check <"$at/bundle" | awk '$1 == "yes" { print $5, $7 }')
  # the first line `tree` is that of the day's own dossier
  splits=$(awk '$1 == "tree" && trees++ { splits += $2 } END { print splits + 0 }' "$at/bundle")
  echo "$1 $yes $day_seconds ${said:-refused refused} $splits $parts_seconds"
}

# tell SIZE: such a line in words
tell() {
  awk -v size="$1" '
    { printf "%s day %d: ", size, $1
      if (NF == 1) print "day is cut off"
      else {
        printf "unassigned %d; dossier: bound %d, splits %d, %.2f s; ", $2, $3, $4, $5
        if (NF == 5) print "parts is cut off"
        else if ($6 == "refused") print "the bundle is refused"
        else printf "bundle: bound %d, parts %d, splits %d, %.2f s; %s\n", $6, $7, $8, $9, $2 == $6 ? "proved" : "open"
      } }'
}

for size in "${sizes[@]}"; do
  : >"$at/lines"
  for number in "${seeds[@]}"; do
    one "$number" "${size%x*}" "${size#*x}" | tee -a "$at/lines" | tell "$size"
  done
  awk -v size="$size" -v nodes="$nodes" -v part_nodes="$part_nodes" '
    NF > 1 { alone += $2 == $3 }
    NF == 9 && $6 != "refused" { proved += $2 == $6; told++; seconds += $9; if ($9 > slowest) slowest = $9 }
    END { printf "%s, %d nodes and %d for each part: %d of %d days proved by the dossier, %d by the bundle; %.2f s for parts each, at most %.2f s\n",
      size, nodes, part_nodes, alone, NR, proved, told ? seconds / told : 0, slowest }' "$at/lines"
done
