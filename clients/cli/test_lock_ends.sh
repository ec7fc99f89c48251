#!/bin/sh
# A lock is held until the command and what it started have ended, whatever ends femem-cli; and the command is asked to end.
. "$(dirname "$0")/testing.sh"

# It cleans up when it is asked to end; what it started works on until the file `go` is there.
cat > command.sh << 'END'
trap 'echo asked >> events; sleep 0.3; echo cleaned >> events; exit 3' TERM INT HUP
sh -c 'trap "" TERM INT HUP; touch in; until [ -e go ]; do sleep 0.02; done; echo ends >> events' &
wait
END

# begin WORD ..: runs the command with a lock.
begin() {
  rm -f in go events
  env --default-signal=INT "$cli" "$@" -- bash command.sh & holder=$!
  until_so [ -e in ]
}

# is_next LOCK: another one, which waits for the lock, is not inside before the last of the first one's processes has ended.
is_next() {
  "$cli" --takeover-after 0.1 lock "$1" -- sh -c 'echo second >> events' & waiter=$!
  until_so sh -c "'$cli' report | grep writeef"
  sleep 0.5
  touch events
  is "a second one inside" "$(grep -c second events)" 0
  touch go
  wait $waiter
  is "the second one's status" $? 0
  is "the order" "$(tail -n 2 events | tr '\n' ' ')" "ends second "
}

for signal in TERM HUP INT; do
  begin lock asked
  kill -$signal $holder
  until_so grep cleaned events
  is_next asked
  wait $holder
  is "the status after SIG$signal" $? 3
  is "who asked the command to end" "$(grep -c asked events)" 1
done

# The processes of a killed femem-cli hold the lock too.
begin lock killed
kill -KILL $holder
wait $holder 2> /dev/null
is "the status after SIGKILL" $? 137
is_next killed
is "who asked the command to end" "$(grep -c asked events)" 0
gives 0 "free" owner killed

# A kill of the whole process group leaves the lock free.
rm -f in
setsid "$cli" lock group -- sh -c 'touch in; exec sleep 300' & holder=$!
until_so [ -e in ]
kill -KILL -$holder
wait $holder 2> /dev/null
gives 0 "" --timeout 60 lock group -- true

# The same session waits for them as well.
begin --session 7 lock own
kill -KILL $holder
wait $holder 2> /dev/null
gives 1 "" -n --session 7 lock own -- echo wrong
touch go
gives 0 "" --timeout 60 --session 7 lock own -- sh -c 'echo second >> events'
is "the order in one session" "$(tail -n 2 events | tr '\n' ' ')" "ends second "

# A terminal sends its signal to all: the command gets it once.
cat > terminal.py << 'END'
import os, pty, sys, time
def until(condition):
    while not condition():
        time.sleep(0.02)
child, line = pty.fork()
if child == 0:
    os.execv(sys.argv[1], [sys.argv[1], "lock", "terminal", "--", "bash", "command.sh"])
until(lambda: os.path.exists("in"))
os.write(line, b"\x03")
until(lambda: os.path.exists("events") and "cleaned" in open("events").read())
open("go", "w").close()
print(os.waitstatus_to_exitcode(os.waitpid(child, 0)[1]))
END
rm -f in go events
is "the status after Ctrl-C" "$(python3 terminal.py "$cli")" 3
is "what the command got" "$(grep -c asked events)" 1
is "the order after Ctrl-C" "$(tail -n 1 events)" "ends"
left_over() { for it in $(grep -ls "FEMEM_SOCKET=$FEMEM_SOCKET" /proc/[0-9]*/environ); do cat "${it%environ}comm" 2> /dev/null; done; }
is "processes that are left" "$(left_over | grep -c femem-cli)" 0
is "sessions" "$(x sessions | cut -d ' ' -f 1,2)" "session 7"
done_testing
