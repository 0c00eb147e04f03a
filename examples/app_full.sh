# The log is full in the middle of the steps of an application. Those before it stay, and are forced; when the log is short
# again, the application goes on.
redo init 4 512 5120
{
  printf 'put 1 '
  for i in {1..400}; do printf '%02x' $((i % 256)); done
  echo
  printf 'aread 0 1\narun 0 400\nforce\ndrain\ntrim\narun 0 400\narun 0 400\nforce\n'
} | redo run
echo "status $?"
# the number of steps and the sum, 8 bytes each, the least significant first
redo dump | sed -n 's/^0 \(.\{16\}\)\(.\{16\}\).*/\1 \2/p'
