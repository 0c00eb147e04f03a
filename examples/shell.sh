# needs: python3 -c '' && test -e "$(dirname "$(readlink -f "$(command -v redo)")")/release/libredo-x86_64-linux.so"
# Lines for people (docs/SHELL.md): values as text, tables, JSON; bad lines with what was expected, and where; a store that is
# exported as a script, which `redo run` takes; a group that is given up, one that is killed in its middle; the statuses.
export LIBREDO=$(dirname "$(dirname "$(readlink -f "$0")")")/release/libredo-x86_64-linux.so
shell() { redo shell "$@" 2>&1; echo "status $?"; }

shell <<'END'
.create accounts 64 1024 65536
put 1 "hello, \u4e16\u754c"
copy 1 2
put 3 0x00ff
put 4 hello
tinsert 8 39 "ann" "100"
tinsert 8 39 "bob" "60"
.tree 8 39
.mode json
.tree 8 39
.mode plain
get 1
get 64
.mode table
.help tget
END
shell accounts <<'END'
begin
put 1 "lost"
.abort
.dump
.export all.redo
.export people.csv 8 39
END
cat people.csv
mkdir copy
redo -C copy init 64 1024 65536
redo -C copy run <all.redo | sort | uniq -c | sed 's/^ *//'
cmp <(redo -C copy dump | sed /^commands/d) <(redo -C accounts dump | sed /^commands/d) && echo alike

mkfifo lines answers
redo shell accounts <lines >answers 2>/dev/null &
exec 8>lines 9<answers
printf '%s\n' begin 'put 1 "lost"' 'put 2 "lost"' 'get 2' >&8
for _ in 1 2 3 4; do read -r answer <&9; done
echo "$answer"
shell accounts </dev/null
{ kill -9 $! && wait $!; } 2>/dev/null
exec 8>&- 9<&-
printf 'get 2\nput 2 "%s"\n' end | shell accounts
shell nowhere </dev/null
printf 'put 1 -\nget 99\nput 1 00\n' | shell --stop --mode plain accounts
