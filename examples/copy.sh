# The log holds the copy, not the value that it makes: a copy of 1,024 bytes costs the log 23 bytes, as a copy of one byte
# does: 18 for the record, 5 for the block of this force. The sixth number of `stat` is the length of the log.
redo init 8 1024 65536
value=$(printf 'ab%.0s' {1..1024})
redo run <<LINES | grep stat
stat
put 0 $value
force
stat
copy 0 1
force
stat
# three commands in one force share one block
copy 1 2
copy 2 3
copy 3 4
force
stat
LINES

# what was copied is made again by a replay, which this run begins with
[ "$(echo get 4 | redo run)" = "$value" ] && echo "object 4 has the value"
