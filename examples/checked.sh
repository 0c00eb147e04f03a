# What a store's files hold, and what a restart would make of them, before one is made: `check_store` says each check with what it
# found, and writes no file.
check=$(dirname "$0")/check_store
redo init 2 16 8192
printf 'put 0 aa\nput 1 bb\nforce\ninstall\nput 0 cc\nforce\n' | redo run >said
"$check"
echo "status $?"

# Where a check fails the others are still said. The last line is the one that a restart ends with.
printf '\7' | dd of=log_a.rdo bs=1 seek=9 conv=notrunc 2>/dev/null
printf '\377' | dd of=log_a.rdo bs=1 seek=16 conv=notrunc 2>/dev/null
"$check" | grep -v ' ok$'
printf '\1' | dd of=log_a.rdo bs=1 seek=9 conv=notrunc 2>/dev/null
printf '\0' | dd of=log_a.rdo bs=1 seek=16 conv=notrunc 2>/dev/null

# the kind of a record
printf '\7' | dd of=log_a.rdo bs=1 seek=56 conv=notrunc 2>/dev/null
"$check" | grep -v ' ok$'
printf '\1' | dd of=log_a.rdo bs=1 seek=56 conv=notrunc 2>/dev/null

# the length of an installed value
printf '\21' | dd of=objects.rdo bs=1 seek=41 conv=notrunc 2>/dev/null
"$check" >said
echo "status $?"
grep -v ' ok$' said
printf '\1' | dd of=objects.rdo bs=1 seek=41 conv=notrunc 2>/dev/null

# Where the objects gate is closed there is no store, though the log tells of one.
printf '\0' | dd of=objects.rdo conv=notrunc 2>/dev/null
"$check" | grep -v 'log_. [^0]'
echo "status ${PIPESTATUS[0]}"

mkdir empty && cd empty
"$check"
echo "status $?"
ls
