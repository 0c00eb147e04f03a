# An index of a thousand keys in the objects 0 to 999, put in one after the other in no order. The run is killed when all
# are in, and the first six hundred are forced: each of these is one command, and each split of a node is one more.
redo init 1000 1024 1048576
mkfifo script
redo run >answers <script &
exec 3>script
for i in {0..999}; do
  [ $i != 600 ] || echo force
  key=$((i * 617 % 1000))
  printf 'tinsert 0 999 %04x %04x\n' $key $((key * key % 65536))
done >&3
for i in {1..2500}; do
  [ "$(wc -l <answers)" -ge 1001 ] && break
  sleep 0.02
done
{ kill -9 $!; wait $!; } 2>/dev/null
uniq -c answers | sed 's/^ *//'
