#!/usr/bin/env bash
# Plans days with random changes (bench/changed_day) by `crew day`, one seed after another, gives what it writes to `crew check`
# and `crew rosters`, and stops at the first day for which not all of this holds: `day` ends with status 0, 3 or 7; each dossier
# gets its yes, with a bound not above what the plan leaves unassigned; with status 0 each bound is what the plan leaves, and
# where one is not, the whole budget was used. That a plan has the jobs that are frozen is a rule of `check`. Words: the first
# seed, or 0, and how many days, or 1000. It prints the seed of what it stops at, and at the end, or where it is interrupted, how
# many days, refusals and dossiers there were, how many of these were proved, and the causes of their splits.
set -u
here=$(cd "$(dirname "${BASH_SOURCE[0]}")" && pwd)
. "$here/timing.sh"
crew=$(built "$here")
first=${1:-0}
count=${2:-1000}
at=$(mktemp -d)
trap 'rm -rf "$at"' EXIT
dossiers=0
refused=0
proved=0
: >"$at/causes"

# stop SEED WORDS..: tells what went wrong, and where
stop() {
  echo "seed $1: ${*:2}"
  exit 1
}

# total: tells what all days up to the last whole one came to
total() {
  echo "seeds $first to $((seed - 1)): $((seed - first)) days, $refused of them refused at a record, $dossiers dossiers, $proved of them proved; splits by cause:"
  sort "$at/causes" | uniq -c
}
trap 'total; exit 0' INT TERM

for ((seed = first; seed < first + count; seed++)); do
  "$here/changed_day" "$seed" >"$at/day"
  "$crew" day <"$at/day" >"$at/output" 2>/dev/null
  status=$?
  case $status in
    0 | 7) cp "$at/output" "$at/dossiers" ;;
    3)
      tail -n 1 "$at/output" | grep -q '^refused [0-9]* [A-Z]' || stop "$seed" "status 3 without a refused line"
      sed '$d' "$at/output" >"$at/dossiers"
      refused=$((refused + 1))
      ;;
    *) stop "$seed" "day ends with status $status" ;;
  esac
  "$crew" check <"$at/dossiers" >"$at/lines" 2>/dev/null || stop "$seed" "check ends with status $?"
  "$crew" rosters <"$at/dossiers" >"$at/rosters" 2>/dev/null || stop "$seed" "rosters ends with status $?"
  # A yes line's numbers stand at words 3, 5, 7, .., and the budget is the last word of a line `size`.
  grep '^size ' "$at/dossiers" | paste -d' ' "$at/lines" - >"$at/both"
  told=$(awk -v status="$status" '
    $1 != "yes" { print "no yes line: " $0; exit }
    $5 > $3 { print "a bound above the unassigned: " $0; exit }
    status == 0 && $5 != $3 { print "status 0 with a gap: " $0; exit }
    $5 != $3 && $7 + $9 != $NF { print "a gap with steps left: " $0; exit }' "$at/both")
  [ -z "$told" ] || stop "$seed" "$told"
  dossiers=$((dossiers + $(wc -l <"$at/lines")))
  proved=$((proved + $(awk '$3 == $5' "$at/lines" | wc -l)))
  awk '$1 == "why" { print $2, $2 == "overflow" ? $4 : "" }' "$at/dossiers" >>"$at/causes"
done
total
