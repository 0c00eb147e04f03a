# Where keys rise and the oldest are deleted, a tree of 64 objects comes to `refused TreeFull` after 148 inserts, and no delete helps.
# Then what is left is read, the objects get the empty value, and it is inserted again; in a group a crash leaves all of that or none.
redo init 64 1024 4194304
for k in $(seq 1000 1199); do
  printf 'tinsert 0 63 %04x aa\n' "$k"
  [ "$k" -lt 1008 ] || printf 'tdelete 0 63 %04x\n' $((k - 8))
done >lines
redo run <lines >answers
full=$(grep -n -m 1 'refused TreeFull' answers | cut -d : -f 1)
echo "$(head -n $((full - 1)) lines | grep -c tinsert) inserts"

all='trange 0 63 0000 ffff'
echo "$all" | redo run | tee left
{
  echo begin
  for x in {0..63}; do echo "put $x -"; done
  for pair in $(cat left); do echo "tinsert 0 63 ${pair%:*} ${pair#*:}"; done
  echo end
} | redo run | sort -u
printf '%s\n' "$all" 'tinsert 0 63 1000 bb' 'tget 0 63 1000' | redo run
