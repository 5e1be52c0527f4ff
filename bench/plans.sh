#!/usr/bin/env bash
# Prints for generated days what a greedy plan leaves unassigned, and what 20,000 iterations of the plan search leave, with
# the seconds of the search. With the word again: what the first two searches at a root leave, the second of which ruins and
# recreates the plan that the routes of the ascent between suggest, what its prices prove, and the seconds of the three. With
# other words: only these sizes, as 8x40.
set -eu
here=$(cd "$(dirname "${BASH_SOURCE[0]}")" && pwd)
. "$here/parts.sh"
part=$(part "$here")
work=bettered
if [ "${1:-}" = again ]; then
  work=again
  shift
fi
sizes=("$@")
if [ $# -eq 0 ]; then sizes=(4x15 6x25 8x40 10x50 12x70 15x90 20x120 30x200 40x300 64x400); fi

# each kind of line, of a day and its teams and tasks
bettered() {
  echo "greedy $("$part" plan "$@" 0); bettered $(timed "$part" plan "$@" 20000)"
}
again() {
  timed "$part" again "$@" 1
}

for size in "${sizes[@]}"; do
  last=9
  if [ "${size#*x}" -ge 200 ]; then last=4; fi
  for day in $(seq 0 $last); do
    echo "$size day $day: $("$work" "$day" "${size%x*}" "${size#*x}")"
  done
done
