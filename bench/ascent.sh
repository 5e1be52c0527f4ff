#!/usr/bin/env bash
# Prints for generated days what an ascent from zero prices comes to at the root, where it aims at what the plan search
# leaves unassigned: rounds, what is proved, and seconds of the processor in all. With words: only these sizes, as 8x40.
set -eu
here=$(cd "$(dirname "${BASH_SOURCE[0]}")" && pwd)
. "$here/parts.sh"
part=$(part "$here")
sizes=("$@")
if [ $# -eq 0 ]; then sizes=(4x15 6x25 8x40 10x50 12x70 15x90 20x120 30x200 40x300 64x400); fi

for size in "${sizes[@]}"; do
  last=9
  if [ "${size#*x}" -ge 200 ]; then last=4; fi
  for day in $(seq 0 $last); do
    echo "$size day $day: $(timed "$part" ascent "$day" "${size%x*}" "${size#*x}" 500)"
  done
done
