# A client keeps writing while its store is saved, five objects at a time. The backup holds what was answered before `bfinish`,
# as a store has it that was given the same lines; what came later is in the store alone.
redo init 64 64 1000000
mkfifo lines answers

# starts a run, whose lines come by descriptor 3, and whose answers by descriptor 4
begin() {
  redo run <lines >answers &
  exec 3>lines 4<answers
}

# gives a line, and waits for its answer
ask() {
  echo "$*" >&3
  IFS= read -r answer <&4
}

# the next change of the client, which is written down
n=0
change() {
  local x
  n=$((n + 1)) x=$((n * 7 % 64))
  case $((n % 3)) in
    0) line="swap $x $(((x + 1) % 64))" ;;
    *) line="put $x $(printf '%04x' $n)" ;;
  esac
  ask "$line"
  echo "$line" >>script
}

begin
for i in {1..50}; do change; done
ask bstart
echo "bstart: $answer"
until [ "$answer" = "copied 64" ]; do
  change
  change
  ask install
  ask bcopy 5
done
echo "bcopy: $answer"
ask trim
echo "trim: $answer"
change
cp script saved
ask bfinish
echo "bfinish: $answer"
for i in {1..10}; do change; done
ask force
echo "force: $answer"
exec 3>&- 4<&-
wait

mkdir elsewhere plain
for file in objects.rdo log_a.rdo log_b.rdo; do mv "bak_$file" "elsewhere/$file"; done
redo -C plain init 64 64 1000000
redo -C plain run <saved >/dev/null
redo -C plain dump >wanted
redo -C elsewhere dump | cmp - wanted && echo "elsewhere: the same, $(tail -n 1 wanted)"
echo "here: $(redo dump | tail -n 1)"
printf 'put 0 ff\nforce\n' | redo -C elsewhere run

# A backup whose run is killed is no store, and the next one is made anew.
begin
ask bstart
ask bcopy 5
echo "bcopy: $answer"
{ kill -9 $!; wait $!; } 2>/dev/null
exec 3>&- 4<&-
mkdir half
for file in objects.rdo log_a.rdo log_b.rdo; do cp "bak_$file" "half/$file"; done
redo -C half dump 2>/dev/null
echo "half: status $?"

# Where no program uses the store, one word saves it into another folder.
redo backup copies/first
redo dump >wanted
redo -C copies/first dump | cmp - wanted && echo "copies/first: the same, $(tail -n 1 wanted)"
redo backup copies/first 2>/dev/null
echo "again: status $?"
