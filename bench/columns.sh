#!/usr/bin/env bash
# Times a hundred thousand columns over the greatest generated day, 64 teams and 400 tasks: to add them, to ask for those of
# each team and task, and to ask which are routes where one pair in ten is forbidden. Seconds of the processor; the last two
# are for one time, from the difference between many and none.
set -eu
here=$(cd "$(dirname "${BASH_SOURCE[0]}")" && pwd)
. "$here/parts.sh"
part=$(part "$here")

# once KIND COUNT TIMES: what the part prints for so many, and its seconds, less those of none, for one of so many times
once() {
  {
    timed "$part" "$1" 0 64 400 0
    timed "$part" "$1" 0 64 400 "$2"
  } | awk -v times="$3" '
    NR == 1 { none = $NF }
    NR == 2 { spent = $NF - none; sub(/ seconds .*/, ""); printf "%s: %.6f s\n", $0, spent / times }'
}

echo "added: $(once columns 100000 1)"
echo "asked for those of all teams and tasks: $(once using 2000 2000)"
echo "asked which are routes: $(once legal 40 40)"
