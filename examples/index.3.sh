# The keys that were lost are put in again, and all are read.
{
  for i in {600..999}; do
    key=$((i * 617 % 1000))
    printf 'tinsert 0 999 %04x %04x\n' $key $((key * key % 65536))
  done
  echo force
  echo 'trange 0 999 0064 0078'
} | redo run | uniq -c | sed 's/^ *//'
echo 'trange 0 999 00 ff' | redo run | tr ' ' '\n' | wc -l
