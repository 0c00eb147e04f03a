# An application reads eight bytes and takes three steps, which are forced; the run is killed when two more were taken.
redo init 8 64 65536
mkfifo script
redo run >answers <script &
exec 3>script
printf 'put 1 0102030405060708\naread 0 1\narun 0 3\nforce\narun 0 2\n' >&3
for i in {1..2500}; do
  [ "$(wc -l <answers)" -ge 5 ] && break
  sleep 0.02
done
{ kill -9 $!; wait $!; } 2>/dev/null
cat answers
