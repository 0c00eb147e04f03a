# A copy is flushed before the object that it was made from; the run is killed then.
redo init 8 64 65536
mkfifo script
redo run >answers <script &
exec 3>script
printf 'put 0 bb\nappend 0 1\ninstall\ninstall\n' >&3
for i in {1..2500}; do
  [ "$(wc -l <answers)" -ge 4 ] && break
  sleep 0.02
done
{ kill -9 $!; wait $!; } 2>/dev/null
cat answers
