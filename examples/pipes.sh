# What docs/CLIENTS.md says of the two pipes between a client and the store.
redo init 8 64 65536
commands() { redo dump | tail -n 1; }

# an answer comes before the next line is sent
coproc STORE { exec redo run; }
exec 5>&"${STORE[1]}" 6<&"${STORE[0]}"
for line in 'put 0 aa' 'get 0'; do
  echo "$line" >&5
  read -r answer <&6
  echo "$answer"
done

echo "- a client that reads no answer is held up where both pipes are full, and goes on as it reads"
yes 'get 0' | head -n 100000 >lines
cat lines >&5 &
client=$!
sleep 1
kill -0 $client && echo "held up"
head -n 100000 <&6 | sort | uniq -c | tr -s ' '
wait $client && echo "all are sent"

echo "- SIGTERM loses what is not forced"
pid=$STORE_PID
printf '%s\n' force 'put 1 bb' >&5
for _ in 1 2; do read -r answer <&6 && echo "$answer"; done
{ kill -TERM "$pid"; wait "$pid"; } 2>/dev/null
commands

echo "- the end of the input ends an open group, and forces"
printf '%s\n' begin 'put 2 cc' 'put 3 dd' | redo run
commands

echo "- a last line that was cut off is done as it stands, but for a filter"
printf 'put 4 aabb\n' | head -c 8 | redo run
whole() { while IFS= read -r line; do printf '%s\n' "$line"; done; }
printf 'get 4\nput 4 ccdd\n' | head -c 14 | whole | redo run
commands
