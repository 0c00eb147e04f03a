# A store that needs a greater LIMIT goes on in a new folder, where the table of its objects is the script. Where the dump
# fails, nothing is copied.
redo init 4 16 4128
printf 'put 0 aa\ncopy 0 2\nput 3 0b\n' | redo run

copy() {
  mkdir "$1"
  redo dump >dump.txt && awk -v limit=65536 '/^commands/ { exit } (n += length + 18) > limit - 100 { print "drain\ntrim"; n = length + 18 }
    { print "put " $0 }' dump.txt | (redo -C "$1" init 4 16 65536 && redo -C "$1" run)
}

copy new && (cd new && redo dump)

# the gate of the objects file is closed
printf '\000' | dd of=objects.rdo conv=notrunc status=none
copy none 2>/dev/null || { echo "status $?"; cat dump.txt; ls -A none; }
