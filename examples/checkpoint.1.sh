# A check tells a redo where to begin: of each dirty object the record from which it is applied. The run is killed behind it.
redo init 8 64 65536
mkfifo script
redo run >answers <script &
exec 3>script
printf 'put 0 aa\nappend 1 0\ncheckpoint\n' >&3
for i in {1..2500}; do
  [ "$(wc -l <answers)" -ge 3 ] && break
  sleep 0.02
done
{ kill -9 $!; wait $!; } 2>/dev/null
cat answers
# the check is the log's last record: the next number, one redo start, of object 0, at record 1; a closed gate ends the log
tail -c 26 log_a.rdo | od -An -v -tx1 -w26
