#!/bin/sh
# nightly.sh NAME DAY COMMAND ..: runs the command once for each day, however many start it, and never two at a time. DAY is a
# number that grows, such as that of `date +%Y%m%d`. A command that fails or is killed is run again by the next start.
# The command has FEMEM_GENERATION: what it writes to can refuse a smaller number than one that it has seen.
set -eu
name=$1 day=$2
if [ "${NIGHTLY:-}" != "$name" ]; then
  # Waits for a start that is at work; 10 seconds after both of its processes are gone, its lock is taken over.
  exec femem-cli --timeout 3600 --takeover-after "${TAKEOVER_AFTER:-10}" lock "${name}_lock" -- \
    env NIGHTLY="$name" "$0" "$@"
fi
shift 2
last=$(femem-cli counter "${name}_day")
if [ "$last" -ge "$day" ]; then
  echo "$name: day $day is done" >&2
  exit 0
fi
"$@"
femem-cli writexf "${name}_day" 0 "$day"
