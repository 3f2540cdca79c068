# What the scripts of this folder share: a folder for the pipes, the run, sources and terminals. It is sourced.
set -euo pipefail
export LC_ALL=C
here=$(cd "$(dirname "$(readlink -f "${BASH_SOURCE[0]}")")" && pwd)
program=$("$here/../../tools/program_of")
export here
started=()
folder=$(mktemp -d)
cd "$folder"

# Whatever ends the script ends all that it started, also what waits for the other end of a pipe.
finish() {
  for job in "${started[@]}"; do
    kill "$job" 2> /dev/null || true            # it may not have its group yet
    kill -- "-$job" 2> /dev/null || true
  done
  if [ -n "${run:-}" ]; then
    kill "$run" 2> /dev/null || true
    cat report.txt
  fi
  rm -rf "$folder"
}
trap finish EXIT

# start WORDS..: runs a function or a command beside the script, in a process group of its own.
start() {
  setsid bash -euo pipefail -c '"$@"' start "$@" &
  started+=("$!")
}

# begin PIPES..: makes these pipes, and starts the run, which opens the feeds, then the asks, then the outputs.
begin() {
  cp "$here/plan.json" "$here/after.txt" .
  mkfifo "$@"
  "$program" run plan.json > report.txt &
  run=$!
  start release "$run" "$@"
}

# release PID PIPES..: once that process has ended, lets go whoever waits for the other end of a pipe, as where a plan is refused.
release() {
  local run=$1 pipe
  shift
  tail --pid="$run" -s 0.1 -f /dev/null
  while :; do
    for pipe; do
      if [ -p "$pipe" ]; then : <> "$pipe"; fi
    done
    sleep 0.1
  done
}

# end: waits for the run, and shows what it leaves.
end() {
  local status=0
  wait "$run" || status=$?
  run=
  cat report.txt
  if [ "$status" -ne 0 ]; then
    echo "the run ended with status $status"
    exit 1
  fi
  paste after.txt after.txt.out
}

# source NAME PAUSE: a source of records, those of examples/live/NAME, each PAUSE seconds after the one before it. Each line
# is kept in kept-NAME first, and then goes into the pipe.
source_of() {
  while IFS= read -r line; do
    printf '%s\n' "$line"
    sleep "$2"
  done < "$here/../live/$1" | tee -p "$1" > "kept-$1"
}

# ask_line NAME LINE: puts the line into descriptor 3, takes the reply from descriptor 4, and shows it with the time that it took.
ask_line() {
  local begun=${EPOCHREALTIME/./} reply
  printf '%s\n' "$2" >&3
  IFS= read -r reply <&4
  printf '%s: %-12s %s, after %d us\n' "$1" "$2" "$reply" "$((${EPOCHREALTIME/./} - begun))"
  printf '%s\n' "$2" >> "$1.asked"
  printf '%s\n' "$reply" >> "$1.replies"
}

# terminal NAME PAUSE TIMES LINES..: asks the lines in turn, so many times, with a pause after each reply.
terminal() {
  local name=$1 pause=$2 times=$3 turn line
  shift 3
  exec 3> "$name.txt" 4< "$name.txt.out"
  for ((turn = 0; turn < times; turn++)); do
    for line; do
      ask_line "$name" "$line"
      sleep "$pause"
    done
  done
}

# audit NAME: tests what a terminal was told against the journal.
audit() {
  printf '%s: ' "$1"
  "$program" recount plan.json journal.txt "$1.asked" "$1.replies"
}
export -f release source_of ask_line terminal
