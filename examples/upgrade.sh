# A store is made larger where it stands: its objects keep their values, and then take up to a mebibyte. Neither N nor CAP
# becomes smaller, and no store is made larger twice.
redo init 8 64 65536
echo 'put 0 000102030405060708090a0b0c0d0e0f' | redo run
redo upgrade 4 64 65536 2>/dev/null || echo "status $?"
redo upgrade 8 1048576 4194304
wc -c <objects.rdo
redo upgrade 8 1048576 4194304 2>/dev/null || echo "status $?"

# sixteen bytes are doubled sixteen times
for i in {1..16}; do
  printf 'copy 0 1\nappend 1 0\n'
done | redo run | sort | uniq -c
echo 'get 0' | redo run | wc -c

# a copy of a mebibyte takes 18 bytes of the log
printf 'copy 0 2\nstat\ncopy 0 3\nstat\n' | redo run | awk '/stat/ { if (last) print $7 - last; last = $7 }'

# with pages a store takes operations on them, here as a standby; in another one they are damage
page='\26\0\0\0\1\1\0\0\0\0\0\0\0\25\2\0\0\0\0\0\1\0b\1\0002'
mkdir plain pages && redo -C plain init 8 64 65536 && redo -C pages init 8 64 65536 --pages
printf "$page" | redo -C plain follow 2>/dev/null || echo "status $?"
printf "$page" | redo -C pages follow
redo -C pages dump
"$(dirname "$0")/log" -C pages | sed -n 's/.* command /command /p'
"$(dirname "$0")/check_store" -C pages | grep version

# the greatest number of objects
mkdir many && cd many && redo init 65535 16 4128 && wc -c <objects.rdo
