# A run is killed in the middle of its script. What was said to be forced is there after that. Of what was accepted behind
# it a beginning may be there; this program writes its log in a force alone, so here it is none.
redo init 8 64 65536
mkfifo script
redo run >answers <script &
exec 3>script
printf 'put 0 aa\ncopy 0 1\nforce\nput 0 bb\ncopy 0 2\n' >&3
for i in {1..2500}; do
  [ "$(wc -l <answers)" -ge 5 ] && break
  sleep 0.02
done
{ kill -9 $!; wait $!; } 2>/dev/null
cat answers
