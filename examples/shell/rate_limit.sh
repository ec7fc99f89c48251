#!/bin/sh
# rate_limit.sh NAME LIMIT SECONDS COMMAND ..: runs the command if fewer than LIMIT ran in this window of SECONDS, over all scripts
# of the machine; otherwise its status is 75. A window has one of 60 words, and whoever counts in it clears the one that comes
# 30 windows later.
set -eu
name=$1 limit=$2 window=$(($(date +%s) / $3))
shift 3
femem-cli find "$name" > /dev/null 2>&1 || femem-cli create "$name" 60 full 2> /dev/null || true
said=$(printf '%s\n' "writexf $name $(((window + 30) % 60)) 0" "int_fetch_add $name $((window % 60)) 1" | femem-cli -e)
before=${said##*[!0-9]} # the last line is how many came before
[ "$before" -lt "$limit" ] || exit 75
exec "$@"
