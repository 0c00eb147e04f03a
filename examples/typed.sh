# needs: command -v script
# At a terminal the command says what it is, `help` lists the lines, and `exit` ends the input, and forces. (This terminal tells no
# width, so that `rlwrap` is not used where it is installed.)
redo init 8 64 65536
printf 'help\nput 0 aa\nget 0\nexit\nput 0 bb\n' | script -qec "stty cols 0; redo run" /dev/null | tr -d '\r' >said
sed -n 's/^redo: [0-9.]*: //p; /^Lines:/p; /^ok$/p; /^aa$/p' said
redo dump
