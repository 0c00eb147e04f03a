# A run is killed behind an install, which has flushed one object of a node of two and logged the other.
redo init 8 64 65536
mkfifo script
redo run >answers <script &
exec 3>script
printf 'put 0 aa\nput 1 bb\nswap 0 1\ninstall\n' >&3
for i in {1..2500}; do
  [ "$(wc -l <answers)" -ge 4 ] && break
  sleep 0.02
done
{ kill -9 $!; wait $!; } 2>/dev/null
cat answers
