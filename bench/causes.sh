#!/usr/bin/env bash
# Looks for masters that overflow: plans generated days by `crew day` with few nodes, by which their roots are split where
# prices don't close them, gives each dossier to `crew check`, and prints the days with a split whose cause is not a loose
# master, and at the end how many splits of each cause there were; for an overflow also its operation. Words: the first day,
# how many days, how many nodes, and sizes, as 20x120. SECONDS_EACH of the environment changes the limit of 120 seconds a day.
set -u
here=$(cd "$(dirname "${BASH_SOURCE[0]}")" && pwd)
. "$here/timing.sh"
crew=$(built "$here")
first=${1:-0}
count=${2:-10}
nodes=${3:-1}
shift $(($# < 3 ? $# : 3))
sizes=("$@")
if [ $# -eq 0 ]; then sizes=(15x90 20x120 30x200); fi
at=$(mktemp -d)
trap 'rm -rf "$at"' EXIT
: >"$at/causes"
cut_off=0

for size in "${sizes[@]}"; do
  for ((day = first; day < first + count; day++)); do
    "$here/generated_day" "$day" "${size%x*}" "${size#*x}" "$nodes" >"$at/day"
    timeout "${SECONDS_EACH:-120}" "$crew" day <"$at/day" >"$at/dossier" 2>/dev/null
    if [ $? -eq 124 ]; then
      cut_off=$((cut_off + 1))
      continue
    fi
    line=$("$crew" check <"$at/dossier" 2>/dev/null)
    if [[ $line != yes* ]]; then
      echo "$size day $day: $line"
      exit 1
    fi
    awk '$1 == "why" { print $2, $2 == "overflow" ? $4 : "" }' "$at/dossier" >"$at/told"
    if grep -q -v '^loose' "$at/told"; then
      echo "$size day $day: $(sort "$at/told" | uniq -c | tr -s ' \n' ' ')"
    fi
    cat "$at/told" >>"$at/causes"
  done
done
echo "days $first to $((first + count - 1)) of ${sizes[*]}, $nodes nodes: $cut_off cut off; splits by cause:"
sort "$at/causes" | uniq -c
