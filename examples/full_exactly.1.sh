# Six puts fill a log to its last byte: five of 1,024 bytes and one of 860. A put of one byte is refused then, until the log
# is trimmed.
redo init 2 1024 6144
put() {
  echo "put 0 $(printf '61%.0s' $(seq "$1"))"
}
{
  for i in {1..5}; do put 1024; done
  put 860
  printf '%s\n' 'put 0 aa' drain trim stat 'put 0 aa'
} | redo run
echo "status $?"
