#!/usr/bin/env bash
# Times the pricing of all teams at the roots of generated days and of the widest day there is (200 places, windows of twelve
# hours, no two teams alike), by the prices of a short ascent: milliseconds for one pricing of all teams, from the difference
# between many and none.
set -eu
here=$(cd "$(dirname "${BASH_SOURCE[0]}")" && pwd)
. "$here/parts.sh"
part=$(part "$here")

# price TEAMS TASKS ROUNDS: the milliseconds, on average over three days
price() {
  for day in 0 1 2; do
    timed "$part" pricing "$day" "$1" "$2" 0
    timed "$part" pricing "$day" "$1" "$2" "$3"
  done | awk -v teams="$1" -v tasks="$2" -v rounds="$3" '
    { sum += (NR % 2 ? -1 : 1) * $NF }
    END { printf "%d teams, %d tasks: %.3f ms\n", teams, tasks, sum / 3 / rounds * 1000 }'
}

price 8 40 4000
price 20 120 800
price 64 400 100

{
  timed "$part" widest 0 64 400 0
  timed "$part" widest 0 64 400 10
} | awk '{ sum += (NR % 2 ? -1 : 1) * $NF } END { printf "the widest day, 64 teams, 400 tasks: %.0f ms\n", sum / 10 * 1000 }'
