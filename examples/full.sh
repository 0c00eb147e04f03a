# The log grows to LIMIT, and commands make it no longer. `full USED NEED LIMIT`: the log was forced and ends at byte USED,
# and the command would need NEED more, a block of its own. get, force and restart always work; a restart adds a check.
# Installed and trimmed, the log is short again.
redo init 2 16 4128
{
  for i in {1..119}; do echo "put 0 000102030405060708090a0b0c0d0e0f"; done
  echo "put 1 61"
} | redo run | uniq -c | sed 's/^ *//'
redo run <<'LINES'
put 0 101112131415161718191a1b1c1d1e1f
copy 0 1
copy 0 0
get 1
drain
trim
stat
copy 0 1
LINES
echo "status $?"
redo dump
