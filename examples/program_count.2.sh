# It goes on behind the steps that were forced, and ends with the output of a run that nothing ended.
redo run <<LINES >answers
prun 0 1 1000
pwrite 0 2
prun 3 1 1000
pwrite 3 4
get 2
get 4
LINES
head -n 4 answers
[ "$(sed -n 5p answers)" = "$(sed -n 6p answers)" ] && echo "the same output, which ends so:"
printf '%b' "$(sed -n 5p answers | sed 's/../\\x&/g')" | tail -n 3
