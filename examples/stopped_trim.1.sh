# A run is killed behind a trim, which has written what is not installed into the other log.
redo init 8 64 65536
mkfifo script
redo run >answers <script &
exec 3>script
printf 'put 0 aa\nput 1 bb\ninstall\ntrim\nstat\n' >&3
for i in {1..2500}; do
  [ "$(wc -l <answers)" -ge 5 ] && break
  sleep 0.02
done
{ kill -9 $!; wait $!; } 2>/dev/null
cat answers
