# Two accounts hold 100 together, and 40 go from one to the other within a group. The run is killed after each of its
# lines: the transfer is done after the last one, and never half done.
lines=('begin' 'put 0 3c' 'put 1 28' 'end' 'force')
for n in 0 1 2 3 4 5; do
  mkdir "$n"
  (
    cd "$n"
    redo init 2 16 65536
    printf 'put 0 64\nput 1 00\nforce\n' | redo run >/dev/null
    mkfifo script
    redo run >answers <script &
    exec 3>script
    [ "$n" -eq 0 ] || printf '%s\n' "${lines[@]:0:n}" >&3
    for i in {1..2500}; do
      [ "$(wc -l <answers)" -ge "$n" ] && break
      sleep 0.02
    done
    { kill -9 $!; wait $!; } 2>/dev/null
    last=nothing
    [ "$n" -eq 0 ] || last=${lines[n - 1]}
    echo "killed after $last: $(redo dump | paste -s -d ' ')"
  )
done
