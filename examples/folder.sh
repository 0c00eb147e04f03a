# `-C DIR` names the folder of the store, and stands before all other words.
try() { redo "$@"; echo "status $?"; }
mkdir store
try -C store init 8 64 65536
printf 'put 0 aa\nforce\n' | try -C store run
try -C store dump
(cd store && redo dump)
try dump
try -C other dump
try -C store/objects.rdo dump
try -C
try dump -C store
