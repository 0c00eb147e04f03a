# needs: command -v make && python3 -c ''
# The first tour of README.md, walked with what `make install` installs, on a PATH without a toolchain: its lines of the shell, and
# its lines of Python.
top=$(dirname "$(readlink -f "$(command -v redo)")")
room=$PWD python=$(command -v python3)
make -s -C "$top" install PREFIX="$room/usr"
# the blocks of a kind, without the line that finds the command in a checkout
blocks() { sed -n "/^\`\`\`$1\$/,/^\`\`\`\$/p" "$top/README.md" | sed '/^```/d; /^PATH=/d'; }
PATH=$room/usr/bin:/usr/bin:/bin
bash -c "$(blocks sh)" >said 2>&1
# (the first block of text is a picture)
diff <(blocks text | sed '1,/a restart/d') said && echo "the tour is as it is told"

mkdir accounts
PYTHONDONTWRITEBYTECODE=1 PYTHONPATH=$top/capi LIBREDO=$room/usr/lib/libredo.so.1 "$python" -c "$(blocks python)"
redo -C accounts dump
