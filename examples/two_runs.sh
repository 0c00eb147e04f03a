# store: 8 64 65536
# A second program on a store in use is refused with status 71, however it is started, and the first goes on. The lock ends
# with the program, also where it is killed. A demo uses no store.
top=$(dirname "$(readlink -f "$(command -v redo)")")
program=$top/release/redo-x86_64-linux
[ -x "$program" ] || program=$top/crates/redo/out/redo

# starts a run, whose lines come by descriptor 5, and waits for its first answer
begin() {
  rm -f lines first
  mkfifo lines
  "$@" run >first <lines &
  exec 5>lines
  echo 'put 0 aa' >&5
  until [ -s first ]; do sleep 0.05; done
}

begin redo
for started in redo "$program"; do
  "$started" dump
  echo "second: status $?"
done
redo init 8 64 65536
echo "second: status $?"
redo demo --seed 0 --steps 0
echo force >&5
exec 5>&-
wait
sed 's/^/first: /' first
redo dump
begin "$program"
redo dump
echo "second: status $?"
{ kill -9 $!; wait $!; } 2>/dev/null
redo dump
