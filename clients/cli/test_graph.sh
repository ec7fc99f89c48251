#!/bin/sh
# What waits, as a picture, as text for Graphviz and as a live view: of locks that wait for each other, and others.
SECONDS_AT_MOST=300
. "$(dirname "$0")/testing.sh"
command -v python3 > /dev/null || { echo "$0: there is no python3" >&2; exit 1; }

# Counts what the picture has, which must be XML: sessions, words, waits and holders, and how many of each are in a cycle.
cat > counts.py << 'END'
import collections, sys, xml.etree.ElementTree as tree
count = collections.Counter()
for it in tree.parse(sys.stdin).iter():
    for name in ("session", "word", "waits", "held"):
        classes = it.get("class", "").split()
        count[name] += name in classes
        count[name + " cycle"] += name in classes and "cycle" in classes
print(*(f"{name} {count[name]} {count[name + ' cycle']}" for name in ("session", "word", "waits", "held")))
END
counted() { x graph --svg "$@" > picture.svg || echo "status $?"; python3 counts.py < picture.svg; }

is "nothing waits" "$(counted --owners)" "session 0 0 word 0 0 waits 0 0 held 0 0"
is "nothing waits, as text" "$(x graph | tr '\n' ' ')" "digraph waits {   rankdir=LR; } "

# Locks `first` of session 901 and `second` of 902, each of whom waits for the other's; `third` of 902, which nobody waits for;
# a word that 904 waits at; and a real lock, `night`, of 905, for which 906 waits.
for it in first:901 second:902 third:902; do
  x create ${it%:*} 2
  x writexf ${it%:*} 0 ${it#*:}
  x writexf ${it%:*} 1 7
done
x create slot 3
"$cli" --session 901 writeef second 0 901 & waiters=$!
"$cli" --session 902 writeef first 0 902 & waiters="$waiters $!"
"$cli" --session 903 writeef first 0 903 & waiters="$waiters $!"
"$cli" --session 904 readfe slot 2 & waiters="$waiters $!"
"$cli" --session 905 lock night -- sh -c 'touch in; until [ -e go ]; do sleep 0.02; done' & holder=$!
until_so [ -e in ]
"$cli" --session 906 lock night -- true & waiters="$waiters $!"
waiting() { x report | grep -c -e writeef -e readfe; }
until_so sh -c "[ \$('$cli' report | grep -c -e writeef -e readfe) = 5 ]"

is "the picture with owners" "$(counted --owners)" "session 6 2 word 4 2 waits 5 2 held 3 2"
is "its names" "$(grep -c 'word 0 of night<' picture.svg) $(grep -c 'word 2 of slot<' picture.svg)" "1 1"
is "the picture without owners" "$(counted)" "session 5 0 word 4 0 waits 5 0 held 0 0"
x graph --owners > graph
is "the text's lines to words and to owners" "$(grep -c -e '"s.*-> "w' graph) $(grep -c -e '"w.*-> "s' graph)" "5 3"
is "what is red in it" "$(grep -c 'color=red' graph)" 8
for edge in '"s901" -> "w2_0"' '"s902" -> "w1_0"' '"w1_0" -> "s901"' '"w2_0" -> "s902"'; do
  is "$edge" "$(grep -F "$edge" graph | grep -c 'color=red')" 1
done
is "a wait that is in no cycle" "$(grep -F '"s903" -> "w1_0"' graph | grep -c 'color=red')" 0
# Another server's graph has no names where the store may not be read.
is "without the store" "$(FEMEM_STORE=nowhere x graph --svg --owners | grep -c 'word 2 of array 4<')" 1
if command -v dot > /dev/null; then
  dot -Tsvg graph > drawn.svg
  is "Graphviz draws it" "$? $(grep -c 'class="edge"' drawn.svg)" "0 8"
  checks=$((checks - 1)) # one more than the list of counts has, where there is Graphviz
fi

# The live view, once, also of a server that stands still for a while.
kill -STOP "$server"
x top --once > top & once=$!
sleep 2
kill -CONT "$server"
wait $once
is "top's status" $? 0
row() { awk -v it="$1" '$1 == it' top | tr -s ' ' | sed 's/ $//'; }
is "a lock in a cycle" "$(row first | head -n 1)" "first 901 away 7 2 in a cycle"
is "a lock that nobody waits for" "$(row third)" "third 902 away 7 0"
is "a lock whose holder is there" "$(row night | head -n 1 | sed 's/905 [1-9]/905 some/')" "night 905 some 1"
is "what waits" "$(row slot)" "slot 2 904 full, readfe"
is "how many wait" "$(grep -c 'waiting 5$' top)" 1
is "it is plain text" "$(tr -d '\n' < top | grep -c '[[:cntrl:]]')" 0
touch go
wait $holder
kill $waiters 2> /dev/null
wait $waiters 2> /dev/null

# A lock that four shells hand on to each other is no deadlock, whatever is read between two looks.
for it in 1 2 3 4; do
  (until [ -e stop ]; do x lock nightly -- sh -c 'echo >> taken; sleep 0.05' || exit; done) & hands="${hands:-} $!"
done
until_so [ -s taken ]
before=$(wc -l < taken) waits=0 red=0
pictures=0
was_busy() { [ $pictures -ge 10 ] && [ $waits -gt 0 ] && [ "$(wc -l < taken)" -gt $((before + 10)) ]; }
until was_busy || [ $pictures -ge 100 ]; do
  pictures=$((pictures + 1))
  # (on a slow disk a wait is over before a picture of it is made, so the pictures themselves may have none)
  waits=$((waits + $(waiting)))
  x top --once > top
  red=$((red + $(grep -c 'in a cycle' top) + $(x graph --owners | grep -c 'color=red')))
done
is "it was handed on" "$([ "$(wc -l < taken)" -gt $((before + 10)) ] && echo yes)" yes
is "some waited" "$([ $waits -gt 0 ] && echo yes)" yes
is "what is red of it" $red 0
touch stop
for it in $hands; do wait "$it"; is "who handed it on" $? 0; done

# Again and again, also while the server is away; then with calls.
"$cli" --program "$program" top --every 0.1 > live 2> errors_of_top & top=$!
pictures() { grep -c '^[0-9:]*  /' live; }
until_so sh -c '[ "$(grep -c "^[0-9:]*  /" live)" -ge 3 ]'
kill_server
until_so grep -q 'server' errors_of_top
start_server
before=$(pictures)
until_so sh -c "[ \"\$(grep -c '^[0-9:]*  /' live)\" -gt $((before + 2)) ]"
# (on a slow disk a call may take a tenth of a second)
yes 'counter hits +1' | head -n 100 | x > /dev/null
until_so grep -qE '^entries a second [1-9][0-9]*, stored in [0-9.]+ ms, slowest [0-9.]+ ms, waiting 0$' live
kill -TERM $top
wait $top 2> /dev/null
is "top's status after SIGTERM" $? 143
until_so sh -c "[ -z \"\$('$cli' --program '$program' sessions | grep -v 'session 90')\" ]"
if command -v script > /dev/null; then
  script -qefc "exec '$cli' --program '$program' top --every 0.1" typed > /dev/null 2>&1 < /dev/null & typing=$!
  until_so sh -c "grep -q '$(printf '\033')\[2J' typed"
  kill -TERM $typing
  wait $typing 2> /dev/null
  is "a terminal is cleared" "$(tr -d '\r' < typed | grep -c "$(printf '\033')\[2J" | sed 's/[1-9][0-9]*/many/')" many
fi
done_testing
