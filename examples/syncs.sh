# How often each call syncs: a program that never does would pass every proof, since real files tell nothing. Three of the
# syncs of a call are of the folder, one for each file that it syncs first.
# needs: strace -o /dev/null true

# runs the program with these words, and says how many syncs it made
syncs() {
  strace -f -qq -e trace=fsync,fdatasync -e signal=none -o calls redo "$@" >/dev/null 2>&1
  echo "$*: $(grep -c "sync(" calls) syncs"
}

# the same for a run on these lines
lines() {
  printf '%s\n' "$@" | syncs run | sed "s/^run/run, $*/"
}

syncs init 8 64 65536
syncs init 8 64 65536
printf 'put 0 aa\n' | syncs run
syncs run </dev/null
syncs dump

# A run without lines makes 8: 6 at its start, and 2 for the check of its restart. A force makes 2, a check 2, a flush 2, or
# 3 where the slot is open and its gate is closed first, a trim 2, or 3 where the gate of the other log is open.
lines install
lines 'put 0 bb' drain
lines 'put 0 cc' drain
lines checkpoint
lines trim
lines trim
