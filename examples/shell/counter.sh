#!/bin/sh
# counter.sh SESSION_FILE STEPS: counts STEPS steps at the counter `steps`, each once, and prints the count after each.
# Killed at any moment and run again with its file, it goes on where it was: a step that was counted has the same answer again.
set -eu
step=1
while [ "$step" -le "$2" ]; do
  femem-cli --session-file "$1" --key "step $step" counter steps +1
  step=$((step + 1))
done
