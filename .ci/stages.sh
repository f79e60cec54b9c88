# What .ci/run and .ci/test share: stages, of which each is a command with a name. It is told how long each took, and which failed.
#
#   open_room gate    first: what is told begins with this word. It makes a folder for what is written, $room, which goes at the end
#
# GATE_JOBS=N: so many stages at a time; else one for each processor and each 3 GB of memory, 2 at least.
began=$(date +%s)
failed=()

# open_room WORD: makes the folder, in which programs that run as nobody get on. What runs when this ends, ends with it.
open_room() {
  teller=$1
  room=$(mktemp -d "${TMPDIR:-/tmp}/$teller-XXXXXX") || exit 1
  trap ended EXIT
  trap 'exit 130' INT TERM HUP
  chmod 711 "$room"
  export TMPDIR=$room/tmp
  mkdir -m 1777 "$TMPDIR" || exit 1
  jobs=${GATE_JOBS:-$(room_for_checks)}
}

# All that this run started ends with it, checks that rt ci began among them; and what they kept goes.
ended() {
  trap - EXIT INT TERM HUP
  python3 .ci/processes.py end $$
  rm -rf "$room"
}

# How many checks this machine has processors and memory for, by what this process may use: a check takes up to 3 GB.
room_for_checks() {
  local cores quota memory
  cores=$(nproc)
  quota=$(awk '$1 != "max" { print int($1 / $2) }' /sys/fs/cgroup/cpu.max 2>/dev/null)
  memory=$(awk '/^MemAvailable:/ { print int($2 / 3000000) }' /proc/meminfo)
  [ "${quota:-$cores}" -ge "$cores" ] || cores=$quota
  [ "$memory" -ge "$cores" ] || cores=$memory
  [ "$cores" -ge 2 ] || cores=2
  echo "$cores"
}

# took BEGAN WHAT: how long it took, in minutes and seconds
took() {
  local seconds=$(($(date +%s) - $1))
  printf '%s: %s: %d minutes %d seconds\n' "$teller" "$2" $((seconds / 60)) $((seconds % 60))
}

# stage NAME COMMAND..: runs a command, says how long it took, and remembers where it fails
stage() {
  local name=$1 from
  shift
  from=$(date +%s)
  # (bash is told of a signal while it waits, and not while a command runs)
  "$@" &
  wait $! || failed+=("$name")
  took "$from" "$name"
}

# told_whole NAME COMMAND..: a stage of which all that it says comes at once, when it has ended; where it fails the end of that is kept
told_whole() {
  local name=$1 from said
  shift
  from=$(date +%s)
  said=$(mktemp "$room/said-XXXXXX")
  if "$@" >"$said" 2>&1; then
    echo "$name" >>"$room/passed"
  else
    echo "$name" >>"$room/failed"
    { echo "$teller: what '$name' said last:"; tail -n 20 "$said" | cut -c1-300; } | flock "$room" tee -a "$room/said-of-failed" >/dev/null
  fi
  { cat "$said"; took "$from" "$name"; } | flock "$room" cat
}

# Waits until one more may run.
wait_for_room() {
  while [ "$(jobs -rp | wc -l)" -ge "$jobs" ]; do wait -n; done
}

# beside NAME COMMAND..: such a stage that runs beside others, so many at a time
beside() {
  wait_for_room
  told_whole "$@" &
}

# Waits for all that runs beside, and remembers what failed of it.
all_beside() {
  wait
  [ ! -f "$room/failed" ] || mapfile -t -O ${#failed[@]} failed <"$room/failed"
  rm -f "$room/failed"
}

# What each stage that failed said last.
tell_failed() {
  [ ! -f "$room/said-of-failed" ] || cat "$room/said-of-failed"
}
