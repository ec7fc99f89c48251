#!/bin/sh
# Locks: statuses, what is told to the command, owners, takeovers, and the Python client's Lock.
SECONDS_AT_MOST=300
. "$(dirname "$0")/testing.sh"

# hold NAME WORD ..: holds a lock until the file `go` is there. `holder` is then femem-cli's process.
hold() {
  rm -f in go
  env --default-signal=INT "$cli" "$@" -- sh -c 'touch in; until [ -e go ]; do sleep 0.02; done' 2> held & holder=$!
  until_so [ -e in ]
}
let_go() { touch go; wait $holder; }
sessions_are() { [ "$(x sessions | cut -d ' ' -f 1,2)" = "$1" ]; }
# The process that has the session of the lock for femem-cli's process $1.
keeper_of() { ps -o pid= --ppid "$1" | while read -r pid; do
  [ "$(cat "/proc/$pid/comm")" != femem-cli ] || echo "$pid"; done; }

# The command's status, and its environment.
gives 0 "" lock night -- true
gives 7 "out" lock night -- sh -c 'echo out; exit 7'
gives 127 "" lock night -- /nowhere/command
gives 126 "" lock night -- "$folder"
gives 143 "" lock night -- sh -c 'kill -TERM $$'
gives 137 "" lock night -- sh -c 'kill -KILL $$'
gives 0 "$FEMEM_SOCKET" lock night -- sh -c 'echo "$FEMEM_SOCKET"'
first=$(x lock night -- sh -c 'echo $FEMEM_GENERATION')
second=$(x lock night -- sh -c 'echo $FEMEM_GENERATION')
is "the fencing number" $((second - first)) 1
is "the lock's number in it" $((first / (1024 * 1024 * 1024 * 1024))) 2
gives 2 "" lock night true
gives 2 "" lock night --
gives 3 "" lock Night -- true
gives 0 "" create array 5
gives 3 "" lock array -- true
says "array is an array, and no lock"
gives 3 "" owner array
gives 3 "" owner nobody
says "nobody: there is no such lock"
gives 0 "free" owner night
gives 0 '{"owner": null}' owner night --json
gives 0 "" sessions

# Who waits.
hold lock night --session 900
gives 0 "session 900" owner night
gives 0 '{"owner": 900, "away": false}' owner night --json
gives 1 "" lock night --nowait -- echo wrong
says "night: not now: without 'nowait' it waits"
gives 1 "" lock night --timeout 0.2 -- echo wrong
says "night: not in time"
gives 75 "" -E 75 --timeout 0.2 lock night -- echo wrong
gives 75 "" -E 75 -n --session 900 lock night -- echo wrong
says "another process uses session 900"
gives 1 "" --takeover-after 0.4 --timeout 2 lock night -- echo wrong
for signal in TERM:143 INT:130 HUP:129; do
  env --default-signal=INT "$cli" lock night -- echo wrong 2> said & waiter=$!
  until_so sh -c "'$cli' report | grep writeef"
  kill -${signal%:*} $waiter
  wait $waiter 2> /dev/null
  is "a waiting lock's status after SIG${signal%:*}" "$? $(cat said)" "${signal#*:} "
  until_so sh -c "! '$cli' report | grep writeef" # (the next one is not taken for this one)
done
# A signal ends it at any moment of its begin.
ended=0
trap - TERM # (a child has what it inherits until it runs femem-cli)
for moment in 000 002 004 006 008 010 012 014 016 018 020 022 024 026 028 030 033 036 040 050; do
  "$cli" lock night -- echo wrong > /dev/null 2>&1 & waiter=$!
  sleep 0.$moment
  kill -TERM $waiter
  until_so sh -c "! kill -0 $waiter || grep -q zombie /proc/$waiter/status"
  wait $waiter 2> /dev/null
  ended=$((ended + ($? == 143)))
done
trap 'exit 1' TERM
is "waits that a signal ended" $ended 20
"$cli" lock night -- echo wrong & waiter=$!
until_so sh -c "'$cli' report | grep writeef"
kill -KILL $waiter
wait $waiter 2> /dev/null
until_so sh -c "! '$cli' report | grep writeef"
"$cli" lock night -- echo next > got & waiter=$!
until_so sh -c "'$cli' report | grep writeef"
let_go
wait $waiter
is "the next one" "$? $(cat got)" "0 next"
until_so sessions_are "session 900" # (a process that was ended takes leave a moment later)

# The server is restarted while the lock is held, and while one waits.
hold lock night --session 900
"$cli" lock night -- echo next > got & waiter=$!
until_so sh -c "'$cli' report | grep writeef"
kill_server
sleep 0.3
start_server
until_so sh -c "'$cli' report | grep writeef"
until_so sh -c "[ 'session 900' = \"\$('$cli' owner night)\" ]"
gives 1 "" --takeover-after 0.4 --timeout 2 lock night -- echo wrong
let_go
wait $waiter
is "the next one after a restart" "$? $(cat got)" "0 next"

# The same while the server is away for longer than a part of the time of a takeover.
hold lock night --session 900
"$cli" --takeover-after 4 --timeout 60 lock night -- echo next > got & waiter=$!
until_so sh -c "'$cli' report | grep writeef"
kill_server
sleep 2.5
start_server
until_so sh -c "[ 'session 900' = \"\$('$cli' owner night)\" ]"
let_go
wait $waiter
is "the next one after an outage" "$? $(cat got)" "0 next"

# The process that has the session is killed: another one goes on with the lock, until the command has ended.
for session in "" "--session 900"; do
  hold lock night $session
  keeper=$(keeper_of $holder)
  owner=$(x owner night)
  kill -KILL "$keeper"
  until_so sh -c "! kill -0 $keeper"
  until_so sh -c "[ '$owner' = \"\$('$cli' owner night)\" ]"
  gives 1 "" --takeover-after 0.2 --timeout 1.5 lock night -- echo wrong
  let_go
  is "the status over a kill of the process that has the session" "$? $(cat held)" "0 "
  gives 0 "free" owner night
done
# .. and while there is no server: it waits for one.
hold lock night --session 900
keeper=$(keeper_of $holder)
kill_server
kill -KILL "$keeper"
until_so sh -c "! kill -0 $keeper"
sleep 0.5
start_server
until_so sh -c "[ 'session 900' = \"\$('$cli' owner night)\" ]"
gives 1 "" --takeover-after 0.2 --timeout 1.5 lock night -- echo wrong
let_go
is "the status over a kill of both" "$? $(cat held)" "0 "
until_so sessions_are "session 900"

# An owner that was killed: it is away, the same session takes its own lock again, and others take it over or break it.
kill_owner() {
  hold "$@"
  keeper=$(keeper_of $holder)
  kill -KILL $holder "$keeper"
  wait $holder 2> /dev/null
  touch go
  until_so sh -c "! kill -0 $keeper"
}
kill_owner lock night --session 900
gives 0 "session 900 away" owner night
gives 0 '{"owner": 900, "away": true}' owner night --json
gives 1 "" --timeout 0.5 lock night -- echo wrong
gives 0 "again" --session 900 lock night -- echo again
gives 0 "free" owner night
kill_owner lock night --session 900
begun=$(date +%s)
gives 0 "" --takeover-after 2 --timeout 60 lock night -- true
says "night: taken over from session 900, which was away"
took=$(($(date +%s) - begun))
is "the time of a takeover, $took seconds" $((took >= 2 && took <= 20)) 1
kill_owner lock night --session 900
gives 0 "" break night
gives 0 "mine" lock night -n -- echo mine

# Two commands that wait for each other's locks, as a graph.
for each in 1 2; do
  "$cli" --session 80$each lock lock_$each -- sh -c "touch in_$each; until [ -e in_1 ] && [ -e in_2 ]; do sleep 0.02; done
    exec '$cli' --session 81$each --timeout 300 lock lock_$((3 - each)) -- true" 2> said_$each &
  holders="${holders-} $!"
done
until_so sh -c "[ \$('$cli' report | grep -c writeef) = 2 ]"
x graph --owners > graph
id() { x find "$1" | cut -d ' ' -f 2; }
for each in 1 2; do
  is "who waits for lock_$each" "$(grep -c "\"s81$((3 - each))\" -> \"w$(id lock_$each)_0\" .label=\"writeef, needs empty" graph)" 1
  is "who holds lock_$each" "$(grep -c "\"w$(id lock_$each)_0\" -> \"s80$each\" .label=\"is held by" graph)" 1
done
is "names of arrays" "$(grep -c 'word 0 of lock_[12]"' graph)" 2
gives 0 "" break lock_1
wait "${holders##* }"
is "the status of who got it" $? 0
holders=${holders% *}
wait "${holders##* }"
is "the status of whose lock was broken" "$? $(cat said_1)" "5 femem-cli: lock_1: the lock was taken over while the command ran"

# The process that waits is killed.
hold lock night --session 901
"$cli" --session 902 lock night -- echo wrong 2> said & waiter=$!
until_so sh -c "'$cli' report | grep 'session 902 .*writeef'"
kill -KILL "$(keeper_of $waiter)"
wait $waiter
is "the status of a killed wait" $? 5
says "night: the process that waits for it was killed"
let_go

hold lock night --session 901
gives 0 "" break night
touch go
wait $holder
is "the status of an owner whose lock was broken" $? 5
is "what it says" "$(cat held)" "femem-cli: night: the lock was taken over while the command ran"
done_testing
