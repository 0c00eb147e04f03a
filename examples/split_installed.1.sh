# The eighth key splits the root, by one record. An install writes one of the three nodes into its slot, and logs the values
# of the other two; the run is killed before these are in theirs.
redo init 8 1024 65536
mkfifo script
redo run >answers <script &
exec 3>script
{
  for i in 1 2 3 4 5 6 7; do echo "tinsert 0 7 0$i a$i"; done
  echo drain
  printf 'tinsert 0 7 08 a8\ninstall\nstat\n'
} >&3
for i in {1..2500}; do
  [ "$(wc -l <answers)" -ge 11 ] && break
  sleep 0.02
done
{ kill -9 $!; wait $!; } 2>/dev/null
uniq -c answers | sed 's/^ *//'
