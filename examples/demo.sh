# A demo answers a generated script on a store in memory, and says what it did. It is the same on each day, and no file is
# touched. The options may come in either order, and their values after a `=`; other words are refused.
try() { redo "$@" </dev/null; echo "status $?"; }

try demo --seed 0 --steps 0
try demo --steps=0 --seed=0
try demo --seed 0 --steps 1
try demo --seed 7 --steps 2000
try demo --steps 2000 --seed 7
try demo --seed 18446744073709551615 --steps 300
try demo --seed 18446744073709551616 --steps 300
try demo --seed 7 --steps 1000001
try demo --seed 7
ls
