# The log of a store as text: `log` says the header, each block, each record, and the end.
log=$(dirname "$0")/log
redo init 8 1024 8192
redo run >said <<'END'
put 0 aa
copy 0 1
force
put 1 -
tinsert 2 7 61 78
checkpoint
install
swap 0 1
install
install
force
END
"$log"
echo "status $?"

# Of the records those alone that are asked; and while nobody uses the store a glance says the same.
"$log" --object 0 --from 2
"$log" --kind put --to 2
"$log" --glance 2>told | tail -n 1
"$log" --kind puts 2>told
echo "status $?"

# And they are counted by their kinds.
"$log" --stats --from 2 --to 5

# The last block begins at byte 206. Where its gate is closed, the force counts for nothing: the bytes behind it are what a force
# that was stopped would have left.
printf '\0' | dd of=log_a.rdo bs=1 seek=206 conv=notrunc 2>/dev/null
"$log" | tail -n 2

# The record of the first put begins at byte 56, with its kind, 1. Where it begins with no record, the lines end.
printf '\7' | dd of=log_a.rdo bs=1 seek=56 conv=notrunc 2>/dev/null
"$log"
echo "status $?"

mkdir empty && cd empty
"$log"
echo "status $?"
