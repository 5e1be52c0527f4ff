#!/usr/bin/env bash
# What work that has begun costs: `crew day` over a day of the greatest sizes (64 teams, 400 tasks, 200 places) that is planned
# once without a step of a search, and then either ends, or is told what has begun (`now`), or is changed many times, or both.
# Prints the least seconds of the processor of each, and by their differences what a change takes with and without frozen jobs
# beside it; and, with valgrind, how many instructions `now` takes. ROUNDS of the environment tells how often each day is run, or 9.
set -eu
here=$(cd "$(dirname "${BASH_SOURCE[0]}")" && pwd)
. "$here/timing.sh"
crew=$(built "$here")
made=$(mktemp -d)
trap 'rm -r "$made"' EXIT
changes=2000

# day FROZEN CHANGES: with a record `now` in the middle of the day or not (1 or 0), and so many changes of a task that has not begun
day() {
  awk -v frozen="$1" -v changes="$2" 'BEGIN {
    for (p = 0; p < 200; p++) print "place,G" p
    print "default_travel,12"
    for (k = 0; k < 64; k++) print "team,T" k ",G" k ",00:00,24:00,0 1 2 3"
    for (j = 0; j < 400; j++) {
      hour = 5 + int(j / 25)
      printf "task,J%d,G%d,%02d:00,%02d:50,30,%d,%d\n", j, j % 200, hour, hour, 1 + (j % 4 == 0), j % 4
    }
    print "plan,0"
    if (frozen) print "now,13:00"
    for (n = 0; n < changes; n++) print "longer,J399," 30 + n % 2
  }'
}

# seconds FROZEN CHANGES: the least seconds of the processor
seconds() {
  day "$1" "$2" >"$made/day"
  : >"$made/times"
  for _ in $(seq "$rounds"); do
    once "$made/day" "$crew" day >>"$made/times"
  done
  least 2 "$made/times"
}

plain=$(seconds 0 0)
begun=$(seconds 1 0)
changed=$(seconds 0 "$changes")
both=$(seconds 1 "$changes")
jobs=$(day 1 0 | sed '$a plan,0' | "$crew" day | grep '^frozen' | tail -n 1)
awk -v plain="$plain" -v begun="$begun" -v changed="$changed" -v both="$both" -v many="$changes" -v jobs="${jobs#frozen }" 'BEGIN {
  printf "planned once %.3f s; with now %.3f s; with %d changes %.3f s; with both %.3f s\n", plain, begun, many, changed, both
  printf "a change takes %.3f ms, and %.3f ms beside %d frozen jobs\n",
    1000 * (changed - plain) / many, 1000 * (both - begun) / many, jobs }'

# instructions FROZEN: those of the day without changes
instructions() {
  day "$1" 0 >"$made/day"
  valgrind --tool=callgrind --callgrind-out-file=/dev/null "$crew" day <"$made/day" 2>&1 >/dev/null | awk '/Collected/ { print $NF }'
}

if command -v valgrind >/dev/null; then
  echo "now takes $((($(instructions 1) - $(instructions 0)) / 1000000)) million instructions"
fi
