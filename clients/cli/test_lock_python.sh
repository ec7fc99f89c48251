#!/bin/sh
# A lock of femem-cli and one of the Python client exclude each other, and count together.
. "$(dirname "$0")/testing.sh"
export PYTHONPATH="$here/../python" PYTHONDONTWRITEBYTECODE=1

cat > lock.py << 'END'
import os, sys, time
from femem import Client
from femem.patterns import Lock
with Client(os.environ["FEMEM_SOCKET"]) as client:
    lock = Lock(client, "shared")
    if not lock.acquire(timeout=float(sys.argv[1])):
        sys.exit("not in time")
    print(lock.generation, flush=True)
    open("in", "w").close()
    while len(sys.argv) > 2 and not os.path.exists("go"):
        time.sleep(0.02)
    lock.release()
END

# In turns: each acquisition's number is one more.
one=$(x lock shared -- sh -c 'echo $FEMEM_GENERATION')
two=$(python3 lock.py 10)
three=$(x lock shared -- sh -c 'echo $FEMEM_GENERATION')
is "generations" "$((two - one)) $((three - two))" "1 1"

# While one has it, the other does not get it, also if it would take it over from an owner that is away.
rm -f in
python3 lock.py 10 hold > got & holder=$!
until_so [ -e in ]
gives 1 "" -n lock shared -- echo wrong
gives 1 "" --timeout 2 --takeover-after 0.3 lock shared -- echo wrong
x --timeout 20 lock shared -- sh -c '[ ! -e held ] && echo next' > next & waiter=$!
until_so sh -c "'$cli' report | grep writeef"
touch go
wait $holder
is "the Python client's status" $? 0
wait $waiter
is "femem-cli after it" "$? $(cat next)" "0 next"

rm -f in go
x lock shared -- sh -c 'touch in; until [ -e go ]; do sleep 0.02; done' & holder=$!
until_so [ -e in ]
python3 lock.py 0.3 > /dev/null 2> said
is "the Python client while femem-cli has it" "$? $(cat said)" "1 not in time"
python3 lock.py 20 > next & waiter=$!
until_so sh -c "'$cli' report | grep writeef"
touch go
wait $holder
is "femem-cli's status" $? 0
wait $waiter
is "the Python client after it" $? 0
done_testing
