# A program that counts to 99 is killed in its middle: 400 of its steps are forced, and 100 more wait for it.
programs=$(dirname "$(readlink -f "$0")")/programs
redo init 8 1024 65536
mkfifo script
redo run >answers <script &
exec 3>script
printf 'put 1 %s\nprun 0 1 400\nforce\nprun 0 1 100\n' "$("$programs/assemble" "$programs/count")" >&3
for i in {1..2500}; do
  [ "$(wc -l <answers)" -ge 4 ] && break
  sleep 0.02
done
{ kill -9 $!; wait $!; } 2>/dev/null
cat answers
