#!/bin/sh
# Calls while the server is restarted, as the Debian unit does it: its folder goes with it, and comes back with it. And paths
# that no server can come to, and a user who has no right to the socket.
SECONDS_AT_MOST=240
export TMPDIR=/tmp # another user reaches it
. "$(dirname "$0")/testing.sh"

RESTARTS=6
kill_server
export FEMEM_SOCKET="$folder/run/femem/socket"
mkdir run
printf 'socket = "%s"\nstore = "%s"\n' "$FEMEM_SOCKET" "$FEMEM_STORE" > settings.toml

start_in_folder() {
  mkdir run/femem
  sleep 0.05
  "$program" serve --settings settings.toml 2>> errors &
  server=$!
}
end_with_folder() {
  kill -TERM "$server"
  wait "$server" 2> /dev/null
  rm -r run/femem
}

# A loop that counts without a pause. Each call makes its one addition.
count_on() {
  good=0 bad=0
  while [ -e go ]; do
    if "$cli" counter r +1 > /dev/null 2>> said; then good=$((good + 1)); else bad=$((bad + 1)); fi
  done
  echo "$good $bad" > counts
}
start_in_folder
until_so [ -S "$FEMEM_SOCKET" ]
touch go && : > said
count_on & counting=$!
restarts=0
while [ $restarts -lt $RESTARTS ]; do
  before=$(x counter r)
  until_so sh -c "[ \$('$cli' counter r) -gt $before ]"
  end_with_folder
  sleep 0.3
  start_in_folder
  restarts=$((restarts + 1))
done
rm go
wait $counting
read -r good bad < counts
is "calls that failed over $RESTARTS restarts" "$bad $(cat said)" "0 "
is "what was counted" "$(x counter r)" "$good"

# What only looks waits for the server too.
end_with_folder
x report > reported & looking=$!
sleep 0.3
start_in_folder
wait $looking
is "a report over a restart" "$? $(cat reported)" "0 waiting 0"

# A server that does not come back; a signal ends the wait.
end_with_folder
gives 4 "" --reconnect-timeout 0.2 counter r
says "no server at $FEMEM_SOCKET: No such file or directory (--socket names another one)"
"$cli" counter r > got 2> said & waiting=$!
sleep 0.2
kill -TERM $waiting
wait $waiting 2> /dev/null
is "a wait for the server that a signal ends" "$? $(cat got said)" "143 "

# Paths that no server comes to.
gives 4 "" --socket /none/of/these counter r
says "no server at /none/of/these: No such file or directory (--socket names another one)"
gives 4 "" --socket "$folder" counter r
says "no server at $folder: it is no socket (--socket names another one)"
gives 4 "" --socket "$folder" report
says "no server at $folder: it is no socket (--socket names another one)"
gives 4 "" --socket "$folder/settings.toml/socket" counter r

# No right: by the folder, and by the socket. Tried by root, who can be another user.
may_not() {
  checks=$((checks + 1))
  got=$(setpriv --reuid nobody --regid nogroup --clear-groups ./cli --reconnect-timeout 3 "$@" 2>&1)
  is "$* without a right" "$? $got" "6 femem-cli: may not use $FEMEM_SOCKET: $due"
}
cp "$cli" cli
chmod 755 . cli
start_in_folder
until_so [ -S "$FEMEM_SOCKET" ]
chgrp daemon run/femem "$FEMEM_SOCKET"
due="members of its group daemon may ('adduser nobody daemon', and a new login)"
chmod 750 run/femem
may_not counter r
may_not report
chmod 755 run/femem
chmod 770 "$FEMEM_SOCKET"
may_not counter r
chmod 700 "$FEMEM_SOCKET"
due="its owner root may"
may_not counter r
done_testing
