# needs: cc --version
# status: 1
# A client in C: a group of two puts, of which nothing is forced before its end.
cc -O1 -Wall -o client "$(dirname "$(readlink -f "$0")")/clients/redo_store.c"
redo init 8 64 65536
./client . begin 'put 0 3c' 'put 1 28' force end force 'get 1'
