# In another store the sixth put has one byte more, for which there is no room.
mkdir other && cd other || exit 1
redo init 2 1024 6144
put() {
  echo "put 0 $(printf '61%.0s' $(seq "$1"))"
}
{
  for i in {1..5}; do put 1024; done
  put 861
  echo force
} | redo run
echo "status $?"
