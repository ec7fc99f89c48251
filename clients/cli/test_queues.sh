#!/bin/sh
# Work queues: a job is done once its command has ended well, and is given to another taker otherwise.
. "$(dirname "$0")/testing.sh"

q() { status=$1 output=$2; shift 2; gives "$status" "$output" --attempts 3 --capacity 8 --away-after 0.5 queue jobs "$@"; }

# The sessions of clients that are killed are ended by those that come next.
mkdir "$FEMEM_SOCKET.clients"
q 1 "" take -n
says "jobs: not now: without 'nowait' it waits"
q 0 "" put 5
q 0 "" put 18446744073709551614
q 2 "" put 18446744073709551615
q 0 5 take
q 0 '{"value": 18446744073709551614}' take --json
q 1 "" take --timeout 0.2
for i in 1 2 3 4 5 6 7 8; do q 0 "" put $i; done
q 1 "" put 9 -n
for i in 1 2 3 4 5 6 7 8; do q 0 $i take; done

# Commands: done, failed, set aside, dropped.
q 0 "" put 21
q 0 "21 1" take -- sh -c 'echo $FEMEM_VALUE $FEMEM_ATTEMPT'
q 1 "" take -n
q 0 "" put 22
q 4 1 take -- sh -c 'echo $FEMEM_ATTEMPT; exit 4'
q 143 2 take -- sh -c 'echo $FEMEM_ATTEMPT; kill -TERM $$'
q 0 "" aside
q 127 "" take -- /nowhere/command
q 1 "" take --timeout 0.2 -- echo wrong
job=$(x --attempts 3 --capacity 8 queue jobs aside | cut -d ' ' -f 1)
q 0 "$job 22" aside
q 0 "{\"job\": $job, \"value\": 22}" aside --json
q 0 "" drop "$job"
q 3 "" drop "$job"
says "$job: no such job is set aside"
q 0 "" aside

# A waiting take gets the next job; a signal takes it back.
x --attempts 3 --capacity 8 queue jobs take > got & taker=$!
until_so sh -c "'$cli' report | grep readfe"
q 0 "" put 23
wait $taker
is "a waiting take" "$? $(cat got)" "0 23"
env --default-signal=INT "$cli" --attempts 3 --capacity 8 queue jobs take 2> said & taker=$!
until_so sh -c "'$cli' report | grep readfe"
kill -INT $taker
wait $taker 2> /dev/null
is "the status after SIGINT" "$? $(cat said)" "130 "

# What was killed: while the command's processes run nobody else has the job, and then another taker has it.
cat > command.sh << 'END'
echo "begins $FEMEM_ATTEMPT" >> events
touch in
[ "$FEMEM_ATTEMPT" != 1 ] || { until [ -e go ]; do sleep 0.02; done; echo ends >> events; }
END
q 0 "" put 24
"$cli" --attempts 3 --capacity 8 queue jobs take -- sh command.sh & taker=$!
until_so [ -e in ]
kill -KILL $taker
wait $taker 2> /dev/null
q 1 "" take -n -- sh command.sh
touch go
q 0 "" take --timeout 60 -- sh command.sh
is "the attempts" "$(tr '\n' ' ' < events)" "begins 1 ends begins 2 "
rm -f in go events
q 0 "" put 25
"$cli" --attempts 3 --capacity 8 queue jobs take -- sh -c 'touch in; exec sleep 300' & taker=$!
until_so [ -e in ]
all=$(ps -o pid= --ppid $taker)
kill -KILL $taker $all
wait $taker 2> /dev/null
q 0 "2" take --timeout 60 -- sh -c 'echo $FEMEM_ATTEMPT'

# Over restarts of the server, and wrong numbers.
rm -f in
q 0 "" put 26
"$cli" --attempts 3 --capacity 8 --away-after 0.5 queue jobs take -- sh -c 'touch in; until [ -e go ]; do sleep 0.02; done' & taker=$!
until_so [ -e in ]
kill_server
sleep 0.3
start_server
until_so sh -c "'$cli' report | grep readff" # (its taker is back)
q 1 "" take --timeout 2 -- echo wrong
touch go
wait $taker
is "a job over a restart" $? 0
q 1 "" take -n
q 0 "" put 1
gives 3 "" queue jobs put 1
says "jobs is no queue of 1000 jobs with 3 attempts: --capacity and --attempts are the same for all"
q 2 "" give 1
gives 3 "" queue Jobs put 1
gives 0 "" sessions
is "entries of clients that are gone" "$(ls "$FEMEM_SOCKET.clients")" ""
done_testing
