#!/bin/sh
# Lists of commands from standard input, and requests under keys that are killed again and again.
. "$(dirname "$0")/testing.sh"

# A line for each answer, also after one that fails; the status is the first failure's.
printf '%s\n' '# a list' 'create slot 2' 'writeef slot 0 5' '' 'readfe slot 0 ' 'readfe nothing 0' 'jump' 'counter hits +2' > list
x < list > got 2> said
is "a list's status" $? 3
is "a list" "$(cat got)" "done
done
5
2"
is "what it said" "$(cat said)" "femem-cli: line 6: nothing: there is no such array: 'create' makes one
femem-cli: line 7: there is no command jump ('femem-cli --help' lists them)"
x remove slot
x -e < list > got 2> said
is "a list's status with -e" $? 3
is "a list with -e" "$(cat got)" "done
done
5"
printf 'counter hits\n' | x --json > got
is "a list as JSON" "$? $(cat got)" '0 {"value": 2}'
printf 'lock night -- true\nqueue jobs take -- true\n' | x 2> said
is "the status of commands that run others" $? 2
is "what they say" "$(sed -n 2p said)" "femem-cli: line 2: a list and the prompt have no commands that run others"
x < /dev/null
is "an empty list" $? 0
gives 0 "" sessions

# A list is one session, whose number may be chosen.
yes 'counter hits +1' | head -n 100 | x --session 9 > got
is "a long list" "$? $(wc -l < got) $(tail -n 1 got)" "0 100 102"
is "the session that is kept" "$(x sessions | cut -d ' ' -f 1,2)" "session 9"

# Keys: a step that is killed and run again counts once, and has the same answer.
gives 0 1 --session-file state --key first counter steps +1
gives 0 1 --session-file state --key first counter steps +1
gives 3 "" --session-file state --key first counter steps +2
says "steps: the key was used with another request: 'forget KEY' frees it"
gives 0 "" --session-file state forget first
gives 3 "" --session-file state forget first
gives 0 2 --session-file state --key first counter steps +1
for step in 3 4 5 6 7 8 9 10 11 12 13 14 15 16 17 18 19 20; do
  for nap in 0.00$((step % 10)) 0.0$((step * 7 % 10)) 0.01; do
    "$cli" --session-file state --key "step $step" counter steps +1 > /dev/null 2>&1 & killed=$!
    sleep $nap
    kill -KILL $killed 2> /dev/null
    wait $killed 2> /dev/null
    [ $((step % 6)) != 0 ] || { kill_server; start_server; }
  done
  gives 0 $step --session-file state --key "step $step" counter steps +1
done
gives 0 20 counter steps
gives 2 "" forget first

# Channels and queues under keys; a key does not go with --nowait.
keyed() { status=$1 output=$2 key=$3; shift 3; gives "$status" "$output" --session-file state --key "$key" "$@"; }
keyed 0 "" "put 1" channel pipe put 7
keyed 0 "" "put 1" channel pipe put 7
keyed 0 7 "take 1" channel pipe take
keyed 0 7 "take 1" channel pipe take
keyed 1 "" "take 2" channel pipe take --timeout 0.2
# A server that stands still beyond the time: the request is taken back once the server goes on.
x create cell 1
for command in "channel pipe take" "readfe cell 0"; do
  "$cli" --session-file state --key still --timeout 1 $command > got 2> said & still=$!
  until_so sh -c "'$cli' report | grep readfe || ! kill -0 $still"
  kill -STOP "$server"
  sleep 3
  kill -CONT "$server"
  wait $still
  is "$command of a server that stood still" "$? $(cat got)" "1 "
done
x remove cell
keyed 0 "" "put 2" channel pipe put 8
keyed 0 8 "take 2" channel pipe take
keyed 0 "" "job 1" queue jobs put 9
keyed 0 "" "job 1" queue jobs put 9
gives 0 9 queue jobs take
gives 1 "" queue jobs take -n
keyed 2 "" "put 3" channel pipe put 8 -n
says "--key and --nowait do not go together: --timeout does"

# A session file is one process's at a time.
"$cli" --session-file state readfe cells 0 2> /dev/null
x create cells 1
"$cli" --session-file state readfe cells 0 > got & reader=$!
until_so sh -c "'$cli' report | grep readfe"
gives 1 "" --session-file state --timeout 0.2 counter steps
says "another process uses the session file"
# What a killed process asked for without a key is taken back by the next one.
kill -KILL $reader
wait $reader 2> /dev/null
gives 0 20 --session-file state counter steps
gives 0 "" writeef cells 0 3
gives 0 3 --session-file state readfe cells 0 -n
done_testing
