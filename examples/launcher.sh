# A source that was changed is noticed, however old its time is; a write past a limit on the size of files is a fault of the
# disk (status 5), and kills nothing: standard error names the file, and the system's reason.
top=$(dirname "$(readlink -f "$(command -v redo)")")
try() { PATH=/usr/bin:/bin "$@" 2>/dev/null; echo "status $?"; }
mkdir copy store
tar c -C "$top" --exclude=out --exclude=must-fail redo release crates.txt crates | tar x -C copy
try copy/redo -C store init 8 64 65536
source=copy/crates/redo/src/main.rt
sed 's/the/teh/' $source >changed && touch -r $source changed
cp -p $source kept && cp -p changed $source
try copy/redo -C store dump
cp -p kept $source
try copy/redo -C store dump
{ seq -f 'put 1 %0128.0f' 200; echo force; } | (ulimit -f 1; try "$top/redo" -C store run) | tail -n 1
{ seq -f 'put 1 %0128.0f' 200; echo force; } | (ulimit -f 1; "$top/redo" -C store run 2>&1 >answers) | head -n 1
try "$top/redo" -C store dump
