#!/bin/sh
# Locks of keys, semaphores, barriers, and the first of several words.
SECONDS_AT_MOST=500
. "$(dirname "$0")/testing.sh"

# Locks of keys: two keys at once, one key only once, and any text as a key.
hold() {
  rm -f in go
  x "$@" -- sh -c 'touch in; until [ -e go ]; do sleep 0.02; done' & holder=$!
  until_so [ -e in ]
}
let_go() {
  touch go
  wait $holder
  status=$?
}
gives 0 "nobody" lock --in orders "order 4711" -- echo nobody
one=$(x lock --in orders a -- sh -c 'echo $FEMEM_GENERATION')
two=$(x lock --in orders b -- sh -c 'echo $FEMEM_GENERATION')
is "generations of two keys" "$((two - one))" 1
hold lock --in orders "order 4711" --session 700
gives 1 "" -n lock --in orders "order 4711" -- echo wrong
gives 0 "other" -n lock --in orders "order 4712" -- echo other
gives 0 "session 700" owner --in orders "order 4711"
gives 0 '{"owner": 700, "away": false}' owner --in orders "order 4711" --json
gives 0 "free" owner --in orders "order 4712"
gives 0 "" break --in orders "order 4711"
gives 0 "next" lock --in orders "order 4711" -- echo next
let_go
is "the status of a holder whose lock was broken" $status 5
gives 3 "" owner --in no_orders "order 4711"
says "order 4711: there is no such lock"
gives 3 "" owner order
gives 3 "" lock --in orders --capacity 9 a -- true
says "orders has no locks of keys with that capacity: --capacity is the same for all"
gives 3 "" lock --in Orders a -- true
says "Orders: names have a to z, 0 to 9 and _, and 1 to 32 of these"
gives 2 "" lock --in orders "" -- true

# 200 jobs with a lock each, and a server of 64 arrays.
job=0
while [ $job -lt 200 ]; do
  [ "$(x lock --in jobs "job $job" -- echo $job)" = $job ] || break
  job=$((job + 1))
done
is "jobs with a lock each" $job 200

# A semaphore of two: two at once, the third waits.
hold semaphore --session 701 pair -n 2
first=$holder
rm -f in
x semaphore pair --session 702 -n 2 -- sh -c 'touch in; until [ -e go ]; do sleep 0.02; done' & second=$!
until_so [ -e in ]
gives 1 "" --nowait semaphore pair -n 2 -- echo wrong
gives 1 "" --timeout 0.2 semaphore pair -n 2 -- echo wrong
is "the holders" "$(x semaphore pair -n 2 | sort)" "session 701
session 702"
x semaphore pair -n 2 -- echo third > got & third=$!
touch go
wait $first
is "the first" $? 0
wait $second
is "the second" $? 0
wait $third
is "the third" "$? $(cat got)" "0 third"
gives 0 "" semaphore pair -n 2
gives 7 "" semaphore pair -n 2 -- sh -c 'exit 7'
gives 3 "" semaphore pair -n 3
says "pair is no semaphore of 3 permits: -n is the same for all"
gives 2 "" semaphore pair -- true
gives 2 "" semaphore pair -n 0 -- true
gives 2 "" semaphore pair -n
gives 2 "" semaphore pair -n 2 free

# A holder that was killed, with its second process: its permit is given back by name, or by its session's next process.
for how in free again; do
  rm -f in go
  x semaphore pair --session 703 -n 2 -- sh -c 'touch in; exec sleep 600' & holder=$!
  until_so [ -e in ]
  end_others 2> /dev/null
  wait $holder "$server" 2> /dev/null # (a server that ends still has the lock of its store)
  rm -f socket
  start_server
  gives 0 "session 703" semaphore pair -n 2
  [ $how = again ] || gives 0 "" semaphore pair -n 2 free 703
  [ $how = free ] || gives 0 "again" semaphore pair --session 703 -n 2 -- echo again
  gives 0 "" semaphore pair -n 2
done
gives 3 "" semaphore pair -n 2 free 703
says "pair: session 703 has no permit"

# A barrier: nobody passes before the third, twice; and a wait that is too long breaks the round for all.
for round in 1 2; do
  rm -f passed
  for party in 1 2; do
    { x barrier meeting -n 3 && echo $party >> passed; } >> numbers &
  done
  until_so sh -c "[ \$('$cli' report | grep -c readff) = 2 ]"
  is "those that passed in round $round" "$(cat passed 2> /dev/null)" ""
  x barrier meeting -n 3 >> numbers
  until_so sh -c '[ $(wc -l < passed) = 2 ]'
done
is "the numbers of the arrivals" "$(sort -n numbers | tr '\n' ' ')" "0 0 1 1 2 2 "
gives 1 "" --timeout 0.1 barrier meeting -n 3
gives 3 "" barrier meeting -n 3
says "meeting: a wait was too long, and broke the round: 'barrier meeting -n 3 reset' begins a new one"
gives 0 "" barrier meeting -n 3 reset
"$cli" barrier meeting -n 3 > got 2>&1 & waiter=$!
until_so sh -c "'$cli' report | grep readff"
kill -TERM $waiter
wait $waiter 2> /dev/null
is "a wait at a barrier that a signal ends" "$? $(cat got)" "143 "
gives 3 "" barrier meeting -n 3
gives 0 "0" barrier alone -n 1
gives 2 "" barrier meeting
gives 3 "" barrier a_name_of_thirty_one_bytes_is_x -n 1

# The first of several words.
gives 0 "" create one 2
gives 0 "" create two 1
gives 1 "" first readfe one 0 one 1 two 0 --timeout 0.1
gives 1 "" -n first readff one 0
x first readfe one 0 one 1 two 0 > got & waiter=$!
until_so sh -c "[ \$('$cli' report | grep -c readfe) = 3 ]"
gives 0 "" writeef two 0 5
wait $waiter
is "the first" "$? $(cat got)" "0 two 0 5"
gives 1 "" -n readff two 0
gives 0 "" writeef one 1 6
gives 0 "one 1 6" first readff two 0 one 1
gives 0 '{"name": "one", "index": 1, "value": 6}' first readfe one 1 two 0 --json
gives 3 "" first readff one 2
says "one has the words 0 to 1"
gives 3 "" first readff three 0
gives 2 "" first writeef one 0
gives 2 "" first readff one
"$cli" first readfe one 0 two 0 > got 2>&1 & waiter=$!
until_so sh -c "'$cli' report | grep readfe"
kill -TERM $waiter
wait $waiter 2> /dev/null
is "a wait for the first that a signal ends" "$? $(cat got)" "143 "
gives 0 "" writeef one 0 1
gives 0 1 readfe one 0
done_testing
