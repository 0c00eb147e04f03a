# The write graph of a script in the DOT language, by a program of release/: no toolchain is needed.
PATH=/usr/bin:/bin
printf 'put 0 aa\ncopy 0 1\nput 0 bb\n' | "$(dirname "$0")/graph"
echo "status $?"
