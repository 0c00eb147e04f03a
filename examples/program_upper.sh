# store: 8 1024 262144
# A program copies its input in capitals, as far as there is input, and goes on where there is more.
programs=$(dirname "$(readlink -f "$0")")/programs
hex() { od -An -v -tx1 | tr -d ' \n'; }

redo run <<LINES >answers
put 1 $("$programs/assemble" "$programs/upper")
put 2 $(printf 'Redo, then ' | hex)
put 3 $(printf '{go} on!' | hex)
pread 0 2
prun 0 1 100000
pread 0 3
prun 0 1 100000
pwrite 0 4
get 4
LINES
head -n 8 answers
printf '%b\n' "$(tail -n 1 answers | sed 's/../\\x&/g')"
