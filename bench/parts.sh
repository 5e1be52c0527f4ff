# Runs pieces of the planner's work over generated days, for the scripts beside this one. Source it; it wants bash 5.

# part HERE: has the program of measurements built, where it isn't, and prints its path
part() {
  local crate="$1/../crates/crew_bench"
  if [ ! -x "$crate/out/crew_bench" ]; then
    (cd "$crate" && rt run) >&2 || return 1
  fi
  echo "$crate/out/crew_bench"
}

# timed COMMAND..: what the command prints, and behind it the seconds of the processor
timed() {
  local TIMEFORMAT='%U' said seconds
  { seconds=$({ time "$@" >"$printed" 2>&3; } 3>&2 2>&1) || return 1; } 3>&2
  said=$(cat "$printed")
  echo "$said seconds $seconds"
}
printed=$(mktemp)
trap 'rm -f "$printed"' EXIT
