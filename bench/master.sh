#!/usr/bin/env bash
# Times the pivots of the master at the roots of generated days, over the routes of the last ten rounds of an ascent: the
# difference between a run of as many pivots as it makes, at most 20,000, and one of none.
set -eu
here=$(cd "$(dirname "${BASH_SOURCE[0]}")" && pwd)
. "$here/parts.sh"
part=$(part "$here")

# pivots DAY TEAMS TASKS
pivots() {
  {
    timed "$part" master "$1" "$2" "$3" 0
    timed "$part" master "$1" "$2" "$3" 20000
  } | awk -v day="$1" -v teams="$2" -v tasks="$3" '
    NR == 1 { none = $NF }
    NR == 2 { printf "%dx%d day %d: %s, %.3f s\n", teams, tasks, day, $0, $NF - none }'
}

pivots 4 8 40
pivots 10 8 40
pivots 0 10 50
pivots 1 12 70
pivots 0 20 120
