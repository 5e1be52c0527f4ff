#!/usr/bin/env bash
# Searches generated days whose roots their prices leave open, with at most 400 steps each, and the one that no 400 steps settle
# with 60: what the plan leaves unassigned and what is proved, the splits and the leaves that are closed, the causes of the
# splits, and the seconds. With the word roots: takes the step at the root alone of these days, and prints the rounds of its
# two ascents, the pivots of its master's run, whether it closes the root or for which cause it splits it, and its seconds.
set -eu
here=$(cd "$(dirname "${BASH_SOURCE[0]}")" && pwd)
. "$here/parts.sh"
part=$(part "$here")

# searches STEPS TEAMS TASKS DAY..
searches() {
  local steps=$1 teams=$2 tasks=$3 day
  shift 3
  for day; do
    echo "${teams}x$tasks day $day: $(timed "$part" solve "$day" "$teams" "$tasks" "$steps")"
  done
}

# roots STEPS TEAMS TASKS DAY..: the pivots are found by steps with fewer of them, which are not in the seconds
roots() {
  local teams=$2 tasks=$3 day step
  shift 3
  for day; do
    step=$(timed "$part" solve "$day" "$teams" "$tasks" 1)
    echo "${teams}x$tasks day $day: $("$part" root "$day" "$teams" "$tasks" 20000) seconds ${step##* }"
  done
}

work=searches
if [ "${1:-}" = roots ]; then work=roots; fi
"$work" 400 4 15 2 3 4
"$work" 400 6 25 1 3
"$work" 400 8 40 4 10 16 18 20 23
"$work" 400 10 50 0 5 8
"$work" 400 12 70 5 8 9
"$work" 60 12 70 1
