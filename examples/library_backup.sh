# needs: cc --version && python3 -c '' && test -e "$(dirname "$(readlink -f "$(command -v redo)")")/release/libredo-x86_64-linux.so"
# A store within a program is saved while it serves (docs/LIBRARY.md), by Python and by C, and `redo` reads what was saved. A child
# that is killed in the middle of a backup leaves no store there, and loses nothing of its own.
top=$(dirname "$(dirname "$(readlink -f "$0")")")
export PYTHONDONTWRITEBYTECODE=1 PYTHONPATH=$top/capi LIBREDO=$top/release/libredo-x86_64-linux.so
mkdir store monday tuesday half
python3 - <<'END_OF_PYTHON'
import os, signal, redo

with redo.create("store", objects=64, cap=1024, limit=65536) as s:
    s.put(0, b"hello")
    with s.backing_up("monday") as backup:
        print("copied", backup.copy(32))
        s.put(1, b"meanwhile")
        try:
            s.trim()
        except redo.InBackup as error:
            print("InBackup:", error)
    print("saved", backup.commands)
    s.put(0, b"later")
    s.force()
    try:
        s.backup("monday")
    except redo.AlreadyStore as error:
        print("AlreadyStore:", error)
if os.fork() == 0:
    with redo.open("store") as s, s.backing_up("half") as backup:
        s.put(2, b"forced")
        s.force()
        backup.copy(32)
        os.kill(os.getpid(), signal.SIGKILL)
os.wait()
END_OF_PYTHON
redo -C monday dump
redo -C half dump 2>/dev/null
echo "half: status $?"
ln -s "$LIBREDO" libredo.so.1
cc -O1 -Wall -I"$top/capi" -o client "$top/examples/clients/library_backup.c" libredo.so.1
LD_LIBRARY_PATH=. ./client store tuesday
redo -C tuesday dump
