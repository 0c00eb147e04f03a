# needs: python3 -c ''
# A client in Python moves 40 from one account to another, and is killed in its middle the first time.
clients=$(dirname "$(readlink -f "$0")")/clients
redo init 1000 64 1000000
PYTHONDONTWRITEBYTECODE=1 PYTHONPATH=$clients python3 - <<'END'
from redo_store import Refused, Store

store = Store(".")
store.put(0, bytes([100]))
store.copy(0, 7)
print("forced", store.force())
store.ask("begin")
store.put(0, bytes([60]))
store.run.kill()
store.run.wait()

store = Store(".")
print("after a kill", list(store.get(0)), list(store.get(1)))
try:
    with store.group() as lines:
        lines.append(("put", 0, "3c"))
        raise InterruptedError("in the middle")
except InterruptedError as why:
    print(why, list(store.get(0)))
with store.group() as lines:
    lines += [("put", 0, "3c"), ("put", 1, "28")]
print("forced", store.force(), list(store.get(0)), list(store.get(1)))
try:
    store.copy(9, 1000)
except Refused as answer:
    print(answer)
store.ask_all([("put", x, "%04x" % x) for x in range(1000)])
print("after many puts", list(store.get(999)), "status", store.close())
END
