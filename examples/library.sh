# needs: cc --version && python3 -c '' && test -e "$(dirname "$(readlink -f "$(command -v redo)")")/release/libredo-x86_64-linux.so"
# The store within a program (docs/LIBRARY.md): Python makes it, and a child is killed in the middle of a group; `redo` reads what
# was forced and writes more; C and Python read that.
top=$(dirname "$(dirname "$(readlink -f "$0")")")
export PYTHONDONTWRITEBYTECODE=1 PYTHONPATH=$top/capi LIBREDO=$top/release/libredo-x86_64-linux.so
python3 - <<'END_OF_PYTHON'
import os, signal, redo

with redo.create(".", objects=64, cap=1024, limit=65536) as s:
    s.put(0, b"hello")
    s.copy(0, 1)
    print("forced", s.force())
if os.fork() == 0:
    with redo.open(".") as s, s.group():
        s.put(0, b"lost")
        s.put(1, b"lost")
        os.kill(os.getpid(), signal.SIGKILL)
os.wait()
with redo.open(".") as s:
    print("after a kill", s.get(0), s.get(1))
    try:
        redo.open(".")
    except redo.Locked as error:
        print("Locked:", error)
END_OF_PYTHON
redo dump
printf 'put 2 6f6820\ntinsert 4 35 616e6e 313030\nforce\n' | redo run
ln -s "$LIBREDO" libredo.so.1
cc -O1 -Wall -I"$top/capi" -o client "$top/examples/clients/library.c" libredo.so.1
LD_LIBRARY_PATH=. ./client .
python3 - <<'END_OF_PYTHON'
import redo

with redo.open(".") as s:
    tree = s.tree(4, 35)
    tree[b"bob"] = b"60"
    print(dict(tree), s.get(2))
    try:
        s.put(64, b"")
    except redo.NoObject as error:
        print("NoObject:", error)
    s.force()
END_OF_PYTHON
printf 'trange 4 35 61 63\n' | redo run
