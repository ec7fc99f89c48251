# What the tests share: each is `test_X.sh FEMEM_CLI PROGRAM`, with a server and a folder of its own, and ends by itself.
set -u
[ $# = 2 ] || { echo "usage: $0 FEMEM_CLI PROGRAM" >&2; exit 2; }
patience=${FEMEM_PATIENCE:-1} # how many times as long each wait may take, on a slow machine
if [ -z "${FEMEM_BOUNDED:-}" ]; then
  FEMEM_BOUNDED=1 exec timeout -k 10 $((${SECONDS_AT_MOST:-120} * patience)) "$0" "$@"
fi
here=$(cd "$(dirname "$0")" && pwd) # shellcheck disable=SC2034
cli=$(realpath "$1") program=$(realpath "$2")
folder=$(mktemp -d) && cd "$folder" || exit 1
server='' checks=0 failures=0
export FEMEM_SOCKET="$folder/socket" FEMEM_STORE="$folder/store"
printf 'socket = "%s"\nstore = "%s"\nformat = true\n' "$FEMEM_SOCKET" "$FEMEM_STORE" > settings.toml

x() { "$cli" --program "$program" "$@"; }

# until COMMAND ..: waits until it is so.
until_so() {
  tries=0
  until "$@" > /dev/null 2>&1; do
    tries=$((tries + 1))
    [ $tries -lt $((600 * patience)) ] || { echo "$0: never: $*" >&2; exit 1; }
    sleep 0.05
  done
}

start_server() {
  "$program" serve --settings settings.toml 2>> errors &
  server=$!
  until_so [ -S socket ]
}

kill_server() {
  kill -KILL "$server"
  wait "$server" 2> /dev/null
  rm -f socket
}

# is WHAT GOT DUE
is() {
  checks=$((checks + 1))
  [ "$2" = "$3" ] && return
  failures=$((failures + 1))
  echo "$(basename "$0"): $1: '$2' where '$3' is due"
}

# gives STATUS OUTPUT WORD ..: runs femem-cli; its errors are in the file `said`.
gives() {
  status=$1 output=$2
  shift 2
  got=$(x "$@" 2> said)
  is "$*, its status" $? "$status"
  is "$*" "$got" "$output"
}

# says TEXT: the last femem-cli did.
says() { is "the text" "$(cat said)" "femem-cli: $1"; }

# Ends what a test that failed left. It looks twice: a process that is within an exec shows no environment.
end_others() {
  for pause in 0.1 0; do
    for it in $(grep -ls "FEMEM_SOCKET=$FEMEM_SOCKET" /proc/[0-9]*/environ); do
      it=${it#/proc/}
      kill -KILL "${it%/environ}"
    done
    sleep $pause
  done
}

clean_up() {
  end_others 2> /dev/null
  [ -z "$server" ] || { kill -KILL "$server"; wait "$server"; } 2> /dev/null
  cd / && rm -rf "$folder"
}
trap clean_up EXIT
trap 'exit 1' INT TERM HUP

done_testing() {
  echo "femem-cli, $(basename "$0" .sh): $checks checks, $failures failed"
  [ $failures = 0 ]
  exit
}

start_server
