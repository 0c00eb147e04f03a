# One carriage return before the end of a line is dropped, a second one is not. A tab is no space. The last line needs no
# newline. A line of more than 40,000 bytes is bad, even a comment.
redo init 2 16 4128
printf 'put 0 aa\r\nput 0 bb\r\r\nget\t0\n\r\nget 0\n' | redo run
echo "status $?"
printf 'get 0\nget 1' | redo run
echo "status $?"
{ printf '#%039999d\n' 0; printf '#%040000d\n' 0; } | redo run
echo "status $?"
