# Files that break their format are not opened and not changed: the answer names a file and a byte of it.
redo init 2 16 4128
printf 'put 0 aa\nput 0 bb\n' | redo run

# the first command's record begins at byte 56 of the log, behind the check of a restart, with its kind, 1
printf '\7' | dd of=log_a.rdo bs=1 seek=56 conv=notrunc 2>/dev/null
echo "get 0" | redo run
echo "status $?"
printf '\1' | dd of=log_a.rdo bs=1 seek=56 conv=notrunc 2>/dev/null
echo "get 0" | redo run
echo "status $?"
