#!/bin/sh
# The prompt, at a terminal of its own: what is typed, and what is then on the screen up to the next prompt.
. "$(dirname "$0")/testing.sh"
mkfifo keys
SPAWN='import os, pty, sys; sys.exit(os.waitstatus_to_exitcode(pty.spawn(sys.argv[1:])) % 256)'
ctrl_c=$(printf '\003') ctrl_d=$(printf '\004')

# begins OPTION ..: begins a prompt.
begins() {
  : > screen
  env --default-signal=INT python3 -c "$SPAWN" "$cli" "$@" < keys >> screen 2>&1 & terminal=$!
  exec 3> keys
  until_so grep -q 'femem-cli> $' screen
  prompt=$(cat /proc/$terminal/task/$terminal/children)
}

# typed TEXT DUE: a line is typed; DUE is what is then there, up to the next prompt.
typed() {
  : > screen
  printf '%s\n' "$1" >&3
  until_so grep -q '^femem-cli> .\{0\}$' screen
  is "$1" "$(tr -d '\r' < screen)" "$1
$2${2:+
}femem-cli> "
}

# ended STATUS: the prompt has ended with it, and its session too.
ended() {
  wait $terminal
  is "how the prompt ends" $? "$1"
  exec 3>&-
  gives 0 "" sessions
}

begins
typed "create slot 2" "done"
typed "writeef slot 0 42" "done"
typed "  readfe  slot 0" 42
typed "" ""
typed "# a note" ""
typed "counter hits +2" 2
typed "readxx slot 0 --json" '{"value": 42}'
typed "readxx slot 0" 42
typed "find slot" "array 1 length 2"
typed "report" "waiting 0"

# An error is printed, and the prompt goes on. An option is for its line.
typed "readfe nothing 0" "femem-cli: nothing: $(sed -n 's/^4 [^ ]* //p' "$here/../errors.txt")"
typed "jump" "femem-cli: there is no command jump ('femem-cli --help' lists them)"
typed "readfe slot" "femem-cli: readfe NAME INDEX"
typed "readfe slot x" "femem-cli: x is no number from 0 to 4294967295"
typed "writexf slot 0 18446744073709551616" "femem-cli: 18446744073709551616 is no number from 0 to 18446744073709551615"
typed "readfe slot 0 --timeout 0.1" "femem-cli: slot: not in time"
typed "readfe slot 0 -n -q" ""
typed "readfe slot 0 -n" "femem-cli: slot: $(sed -n 's/^11 [^ ]* //p' "$here/../errors.txt")"
typed "readfe slot 0 --timeout soon" "femem-cli: --timeout: soon is no time in seconds"
typed "barrier round -n 1" 0
typed "--json" "femem-cli: there is no command ('help' lists them)"
typed "find slot --session 4" "femem-cli: all lines have one socket and one session: they are for femem-cli itself"
typed "find slot -s elsewhere" "femem-cli: all lines have one socket and one session: they are for femem-cli itself"
typed "lock night -- true" "femem-cli: a list and the prompt have no commands that run others"
typed "help" "$(x --help)"
is "one session for all lines" "$(x sessions | wc -l)" 1

# Ctrl-C takes back what waits, and a line that is not finished.
for round in 1 2 3; do
  : > screen
  echo "readfe slot 1" >&3
  until_so sh -c "'$cli' report | grep 'word 1 1 .* readfe'"
  printf %s "$ctrl_c" >&3
  until_so grep -q '^femem-cli> $' screen
  is "what Ctrl-C leaves on the screen" "$(tr -d '\r' < screen)" "readfe slot 1
^C
femem-cli> "
  gives 0 "waiting 0" report
done
: > screen
printf 'remove slot%s' "$ctrl_c" >&3
until_so grep -q '^femem-cli> $' screen
typed "find slot" "array 1 length 2"
: > screen
echo "top --every 0.1" >&3
until_so grep -q 'stored in' screen
printf %s "$ctrl_c" >&3
until_so grep -q '^femem-cli> $' screen
typed "counter hits" 2

# A server that is started again, also while something waits.
kill_server
start_server
typed "counter hits +1" 3
: > screen
echo "readfe slot 1" >&3
until_so sh -c "'$cli' report | grep readfe"
kill_server
start_server
gives 0 "" writeef slot 1 8
until_so grep -q '^femem-cli> $' screen
is "a wait over a restart" "$(tr -d '\r' < screen | sed -n 2p)" 8
printf %s "$ctrl_d" >&3
ended 0

# One that is gone: the prompt stays, and goes on once it is back.
begins --reconnect-timeout "$patience"
typed "counter hits" 3
kill_server
typed "counter hits" "femem-cli: hits: the server does not answer"
start_server
typed "counter hits" 3
typed "counter hits +1" 4
# What could not be taken back is not asked again.
: > screen
echo "readfe slot 1" >&3
until_so sh -c "'$cli' report | grep readfe"
kill_server
printf %s "$ctrl_c" >&3
until_so grep -q '^femem-cli> $' screen
start_server
typed "counter hits" 4
gives 0 "" writeef slot 1 5
typed "counter hits" 4
gives 0 5 readfe slot 1 --timeout 0
echo quit >&3
ended 0

# Signals end it, at the prompt and while a command waits; a session that is named is kept.
has_begun() { [ -n "$(x sessions)" ] && { [ "$line" = "find slot" ] || x report | grep -q readfe; }; }
for signal in TERM:143 HUP:129; do
  for line in "find slot" "readfe slot 1"; do
    begins
    echo "$line" >&3
    until_so has_begun
    kill -"${signal%:*}" "$prompt"
    wait $terminal
    exec 3>&-
    gives 0 "" sessions
    gives 0 "waiting 0" report
  done
done
begins --session 7
typed "counter hits" 4
printf %s "$ctrl_d" >&3
wait $terminal
exec 3>&-
is "the session that is kept" "$(x sessions | cut -d ' ' -f 1,2)" "session 7"

# One with another store: it does not know the session, and the prompt gets a new one.
begins
typed "counter hits" 4
kill_server
mv store before
start_server
typed "counter hits" "femem-cli: hits: the session on the server is another one"
typed "counter hits +1" 1
kill_server
mv before store
start_server
typed "counter hits" "femem-cli: hits: the session on the server is another one"
typed "counter hits" 4
printf %s "$ctrl_d" >&3
wait $terminal
is "how the prompt ends" $? 0
exec 3>&-
done_testing
