# needs: python3 -c '' && test -e "$(dirname "$(readlink -f "$(command -v redo)")")/release/libredo-x86_64-linux.so"
# A bank whose transfers are transactions (docs/LIBRARY.md): many are given up half way, the log is short, and processes are killed
# at any moment. The accounts have together what they had at first.
top=$(dirname "$(dirname "$(readlink -f "$0")")")
export PYTHONDONTWRITEBYTECODE=1 PYTHONPATH=$top/capi LIBREDO=${BANK_LIBREDO:-$top/release/libredo-x86_64-linux.so}
cat >bank.py <<'END_OF_PYTHON'
import random, sys, redo

ACCOUNTS, EACH = 16, 100


class Poor(Exception):
    pass


def balance(s, x):
    return int(s.get(x) or 0)


def transfer(s, payer, payee, amount, lazy):
    with s.transaction(lazy):
        s.put(payee, b"%d" % (balance(s, payee) + amount))      # the gain first: to lose half of it would make money
        if balance(s, payer) < amount:
            raise Poor
        s.put(payer, b"%d" % (balance(s, payer) - amount))


def total(s):
    return sum(balance(s, x) for x in range(ACCOUNTS))


def work(s, times, lazy=True):
    given_up = 0
    for _ in range(times):
        payer, payee = random.sample(range(ACCOUNTS), 2)
        try:
            transfer(s, payer, payee, random.randrange(1, 80), lazy)
        except Poor:
            given_up += 1
    return given_up


if __name__ == "__main__":
    with redo.open(".") as s:
        while True:
            work(s, 5, random.random() < 0.8)
            s.force()
            sys.stdout.write(".")
            sys.stdout.flush()
END_OF_PYTHON
python3 - <<'END_OF_PYTHON'
import bank, os, random, signal, subprocess, sys, time, redo

with redo.create(".", objects=bank.ACCOUNTS, cap=64, limit=32768) as s:
    with s.transaction():
        for x in range(bank.ACCOUNTS):
            s.put(x, b"%d" % bank.EACH)
    s.force()
    print("given up:", bank.work(s, 1000, lazy=False) > 50, "total:", bank.total(s))
    print("of 100,000 more:", bank.work(s, 100000) > 5000, "total:", bank.total(s))
    try:
        with s.transaction():
            for x in range(1000):
                s.put(x % bank.ACCOUNTS, bytes(64))
    except redo.LogFull:
        print("LogFull: the log has never room for it; total:", bank.total(s))
    with s.group():
        pass
    try:
        with s.group(undo=True):
            s.put(0, b"0")
            raise KeyboardInterrupt
    except KeyboardInterrupt:
        print("a group that is undone; total:", bank.total(s))
totals = set()
for _ in range(50):
    child = subprocess.Popen([sys.executable, "bank.py"], stdout=subprocess.PIPE)
    child.stdout.read(1)
    time.sleep(random.uniform(0, 0.02))
    child.kill()
    child.wait()
    with redo.open(".") as s:
        totals.add(bank.total(s))
print("after each of 50 kills:", *totals)
END_OF_PYTHON
