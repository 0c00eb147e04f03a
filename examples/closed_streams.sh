# A stream that is closed is a fault of the output or of the input, and no answer goes into a file of the store.
redo init 2 16 4128
printf 'put 0 aa\nforce\n' | redo run
redo init 2 16 4128 >&-
echo "init: status $?"
redo dump >&-
echo "dump: status $?"
redo run <&-
echo "run: status $?"

# The program itself, started without the launcher: an input that is closed is an empty script.
top=$(dirname "$(readlink -f "$(command -v redo)")")
program=$top/release/redo-x86_64-linux
[ -x "$program" ] || program=$top/crates/redo/out/redo
"$program" init 2 16 4128 >&-
echo "init: status $?"
"$program" dump <&- >&-
echo "dump: status $?"
"$program" run <&-
echo "run: status $?"
redo dump
