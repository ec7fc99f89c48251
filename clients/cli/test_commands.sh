#!/bin/sh
# Each command's output, status and text.
. "$(dirname "$0")/testing.sh"

gives 0 "" create slot 2
gives 3 "" create slot 1
says "slot: there is an array of that name: 'find' finds it"
gives 3 "" create Job-queue 1
says "Job-queue: names have a to z, 0 to 9 and _, and 1 to 32 of these"
gives 3 "" create a_name_that_is_longer_than_thirty_two 1
gives 3 "" create big 65537
says "big: a length is 1 to 65536"
gives 3 "" create big 65535
says "big: the arrays would have more than 65536 words in all: 'remove' removes one"
gives 2 "" create slots two
gives 2 "" create slots 2 half
gives 0 "array 1 length 2" find slot
gives 3 "" find slots
says "slots: there is no such array: 'create' makes one"

# The eight operations.
gives 1 "" --nowait readfe slot 0
says "slot: not now: without 'nowait' it waits"
gives 1 "" --timeout 0.1 readff slot 0
says "slot: not in time"
gives 0 "" writeef slot 0 18446744073709551615
gives 1 "" -n writeef slot 0 1
gives 0 18446744073709551615 readff slot 0
gives 0 '{"value": 18446744073709551615}' int_fetch_add slot 0 6 -n --json
gives 0 5 int_fetch_add slot 0 -1
gives 0 "" writeff slot 0 7
gives 0 7 readfe slot 0
gives 1 "" writeff slot 0 7 --nowait
gives 0 7 readxx slot 0
gives 0 "" writexf slot 0 8
gives 0 "" writexf slot 0 9
gives 0 9 readff slot 0
gives 0 "" purge slot 0
gives 0 0 readxx slot 0
gives 3 "" readxx slot 2
says "slot has the words 0 to 1"
gives 2 "" writexf slot 0 18446744073709551616
says "18446744073709551616 is no number from 0 to 18446744073709551615"
gives 2 "" writexf slot 0 -1
gives 2 "" readfe slot
gives 2 "" readfe slot x

# Counters and channels.
gives 0 0 counter hits
gives 0 1 counter hits +1
gives 0 5 counter hits +4
gives 0 3 counter hits -2
gives 0 '{"value": 3}' --json counter hits
gives 2 "" counter hits one
gives 3 "" counter slot +1
says "slot is an array of several words, and no counter"
gives 1 "" channel pipe take -n
gives 0 "" channel pipe put 4
gives 1 "" channel pipe put 5 --timeout 0.1
gives 0 4 channel pipe take
x channel pipe take > taken & taker=$!
until_so sh -c "'$cli' report | grep readfe"
gives 0 "" channel pipe put 6
wait $taker
is "a waiting take's status" $? 0
is "a waiting take" "$(cat taken)" 6
gives 2 "" channel pipe give 1

# What only looks.
gives 0 "slot array 1 length 2
hits array 2 length 1
pipe array 3 length 1" arrays
gives 0 '{"name": "slot", "array": 1, "length": 2}
{"name": "hits", "array": 2, "length": 1}
{"name": "pipe", "array": 3, "length": 1}' arrays --json
gives 0 "" sessions
gives 0 "waiting 0" report
gives 0 '{"waiters": [], "all_wait": false}' report --json
x --session 7 readfe slot 0 > waited & waiter=$!
until_so sh -c "'$cli' report | grep 'session 7'"
gives 0 "waiting 1
word 1 0 session 7 number 34 readfe
session 7 waits 1
all-wait yes" report
gives 0 '{"waiters": [{"array": 1, "index": 0, "session": 7, "number": 34, "operation": "readfe"}], "all_wait": true}' \
  report --json
gives 0 "session 7 kept 1 waiting 1" sessions
gives 0 'digraph waits {
  rankdir=LR;
  "s7" [shape=box, label="session 7"];
  "w1_0" [label="word 0 of slot"];
  "s7" -> "w1_0" [label="readfe, needs full"];
}' graph
gives 1 "" --session 7 -n readxx slot 0
says "another process uses session 7"
gives 0 "" writeef slot 0 12
wait $waiter
is "a waiting read" "$(cat waited)" 12
gives 0 "session 7 kept 2 waiting 0" sessions
gives 5 "" sessions --store /nowhere
gives 5 "" arrays --program /nowhere

# A signal takes a waiting request back, and no session is left.
for signal in TERM:143 INT:130 HUP:129; do
  env --default-signal=INT "$cli" readfe slot 1 2> said & waiter=$!
  until_so sh -c "'$cli' report | grep readfe"
  kill -${signal%:*} $waiter
  wait $waiter 2> /dev/null
  is "the status after SIG${signal%:*}" $? "${signal#*:}"
  is "what it said" "$(cat said)" ""
  gives 0 "waiting 0" report
done
gives 0 "session 7 kept 2 waiting 0" sessions

# A server that is restarted; none; wrong usage.
x readfe slot 1 > waited & waiter=$!
until_so sh -c "'$cli' report | grep readfe"
kill_server
sleep 0.2
start_server
gives 0 "" writeef slot 1 13
wait $waiter
is "a waiting read over a restart" "$? $(cat waited)" "0 13"
# A new server that stands still may read the attach of a connection that was given up after that of the next one.
for round in 1 2 3; do
  x readfe slot 0 > waited & waiter=$!
  until_so sh -c "'$cli' report | grep readfe"
  kill_server
  start_server
  kill -STOP "$server"
  sleep 3.3
  kill -CONT "$server"
  gives 0 "" writeef slot 0 14
  wait $waiter
  is "a waiting read over a restart that takes long" "$? $(cat waited)" "0 14"
done
gives 0 "" remove slot
gives 3 "" remove slot
gives 0 "" create slot 1
gives 4 "" --socket / --reconnect-timeout 0 counter hits
gives 2 "" jump
says "there is no command jump ('femem-cli --help' lists them)"
gives 2 "" --jump counter hits
gives 2 "" counter hits --timeout soon
gives 2 "" counter hits --timeout
gives 2 "" --key k counter hits
says "--key needs --session-file"
gives 2 "" lock hits true
is "the version" "$(x --version)" "femem-cli $(sed -n 's/^#define FEMEM_VERSION "\(.*\)"/\1/p' "$here/../c/femem.h")"
is "what --help lists" "$(x --help | grep -c '^  [a-z]')" 27
x counter hits > /dev/full 2> said
is "the status of a full disk" $? 5
says "standard output: No space left on device"
gives 1 "" -n -q readfe slot 0
is "what a quiet command that is not in time says" "$(cat said)" ""
gives 1 "" --quiet --timeout 0.1 readfe slot 0
is "what a quiet command that is late says" "$(cat said)" ""
gives 3 "" -q readfe slots 0
says "slots: there is no such array: 'create' makes one"
kill_server
gives 4 "" --reconnect-timeout 0.2 counter hits
done_testing
