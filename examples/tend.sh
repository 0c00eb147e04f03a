# Thousands of puts into a store with a small LIMIT: its log becomes full, but not where the run tends the store.
redo init 3000 64 8192
puts() { for i in {0..2999}; do echo "put $i 0001020304050607"; done; }
puts | redo run | cut -d ' ' -f 1 | sort -u
printf '%s\n' drain trim | redo run
puts | redo run --tend | uniq -c | sed 's/^ *//'
