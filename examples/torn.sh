# What a force may leave where it is stopped: a block behind a gate that is still closed. The bytes behind a closed gate
# count for nothing, whatever they are, and the next force writes over them.
redo init 2 16 4128
echo "put 0 aa" | redo run
echo "put 0 bb" | redo run

# The block of the second put begins at byte 105, with its gate. Here the gate is closed again, and the block's bytes stay behind it.
printf '\0' | dd of=log_a.rdo bs=1 seek=105 conv=notrunc 2>/dev/null
redo dump
echo "put 1 cc" | redo run
redo dump
