# An application reads three bytes, and the run is killed in the middle of its steps. What was said to be forced is there
# after that: the input, and the first step.
redo init 8 64 65536
mkfifo script
redo run >answers <script &
exec 3>script
printf 'put 1 050a0b\naread 0 1\nexec 0\nforce\nexec 0\nawrite 0 2\n' >&3
for i in {1..2500}; do
  [ "$(wc -l <answers)" -ge 6 ] && break
  sleep 0.02
done
{ kill -9 $!; wait $!; } 2>/dev/null
cat answers
