# needs: command -v script
# At a terminal long work says that it lives, and how much of the log a restart has read. Elsewhere standard error stays empty.
redo init 8 64 65536
script -qfec "yes 'get 0' | redo run >/dev/null" said >/dev/null 2>&1 &
for _ in {1..300}; do
  ! grep -aqs 'at work for' said || break
  sleep 0.2
done
kill $! && wait $! 2>/dev/null
grep -ao -m 1 'redo: at work for' said | head -n 1
# (what was killed may hold the folder for some moments more)
for _ in {1..300}; do
  ! (yes 'get 0' | head -n 1000 | redo run >answers) 2>told || break
  sleep 0.2
done
cat told
sort -u answers

# A program that takes long over the first third of a log is in the place of redo here.
printf '%s\n' '#!/bin/bash' 'read -rN 1000000 log <log_a.rdo' 'while :; do :; done' >slow
chmod +x slow
head -c 3000000 /dev/zero | tr '\0' x >log_a.rdo
start=$(dirname "$(readlink -f "$(command -v redo)")")/release/start
REDO_PROGRAM=$PWD/slow script -qfec "$start dump" said >/dev/null 2>&1 &
for _ in {1..300}; do
  ! grep -aqs 'are read' said || break
  sleep 0.2
done
kill $! && wait $! 2>/dev/null
grep -ao 'of [0-9]* bytes of the log are read' said | head -n 1

# Typed lines reach the program through a pipe, and its work is told of all the same.
REDO_PROGRAM=$PWD/slow script -qfec "stty cols 0; $start run" typed >/dev/null 2>&1 &
for _ in {1..300}; do
  ! grep -aqs 'are read' typed || break
  sleep 0.2
done
kill $! && wait $! 2>/dev/null
grep -ao 'of [0-9]* bytes of the log are read' typed | head -n 1
