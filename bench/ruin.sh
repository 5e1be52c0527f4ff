#!/usr/bin/env bash
# Prints for generated days what a plan leaves unassigned that is bettered by 20,000 iterations of the plan search, and what it
# leaves after it was ruined and recreated, with the seconds of both. LOOKS are the millions of places in orders that are looked
# at, at most, where each trial counts as 200, and SEEDS how many seeds are tried. A day is a word as 12x70:6:9, by teams,
# tasks, its number, and how few unassigned tasks are enough; without words the days are those of docs/METHODS.md.
set -eu
here=$(cd "$(dirname "${BASH_SOURCE[0]}")" && pwd)
. "$here/parts.sh"
part=$(part "$here")
days=("$@")
if [ $# -eq 0 ]; then days=(12x70:6:9 15x90:6:5 20x120:6:4 30x200:0:0 40x300:0:0 64x400:0:0 64x400:2:0); fi
for day in "${days[@]}"; do
  IFS=: read -r size number enough <<<"$day"
  for seed in $(seq 1 "${SEEDS:-10}"); do
    echo "$size day $number seed $seed: $(timed "$part" ruin "$number" "${size%x*}" "${size#*x}" "${LOOKS:-200}" "$seed" "$enough")"
  done
done
