# needs: command -v redis-server && command -v redis-cli
# One primary and two standbys over a stream of Redis (docs/STANDBY.md). The primary adds what the queue has not; a
# standby takes the entries one after the other and remembers the last one that it has. One that was away catches up; an entry that
# comes twice is passed over; what was not added is added later; one that is lost is a gap.
set -o pipefail
here=$PWD
check=$(dirname "$0")/check_store
mkdir queue primary first second
serve() {
  redis-server --port 0 --unixsocket "$here/socket" --dir "$here/queue" --appendonly yes --appendfsync always --save '' >server.log 2>&1 &
  server=$!
  for _ in {1..100}; do
    [ "$(queue ping 2>/dev/null)" != PONG ] || break
    sleep 0.1
  done
}
queue() { redis-cli -e -s "$here/socket" "$@" 2>errors; }
trap 'kill $server 2>/dev/null; wait' EXIT
serve
for name in primary first second; do
  redo -C $name init 8 64 65536
  echo 0 >$name.last
done
echo 1 >primary.shipped

# adds to the queue what it has not of the primary's log: all from the number in `primary.shipped` on
add() {
  local next
  next=$("$check" -C primary | awk '/ next number / { print $5 }') && redo -C primary ship "$(cat primary.shipped)" >frames || return
  [ ! -s frames ] || base64 -w 0 frames | queue -x XADD log '*' frames >added || return
  echo "$next" >primary.shipped
}

run() { printf '%s\n' "$@" | redo -C primary run; }

# takes the entries that a standby has not
take() {
  local entry
  while entry=$(queue --raw XRANGE log "($(cat "$1.last")" + COUNT 1) || return; [ -n "$entry" ]; do
    tail -n 1 <<<"$entry" | base64 -d | redo -C "$1" follow 2>/dev/null || return
    head -n 1 <<<"$entry" >"$1.last"
  done
}

try() { "$@" || echo "status $?"; }

run 'put 0 aa' 'copy 0 1'
try add
try take first
run 'put 2 64' 'put 3 00'
try add
run 'swap 2 3'
try add
echo "- the first one goes on, and the second one begins"
try take first
try take second

echo "- the first one has lost its place: all comes twice"
echo 0 >first.last
try take first

echo "- the queue refuses an entry, and then Redis is gone: the next entry has what is due"
run 'append 0 1'
queue RENAME log kept >renamed && queue SET log 0 >renamed && try add && queue RENAME kept log >renamed
try take first
kill $server && wait $server
try add
try take first
run 'put 4 dd'
serve
try add
try take first

echo "- an entry is lost: it is shipped again, and the one behind the gap is passed over"
skip() { queue --raw XRANGE log "($(cat "$1.last")" + COUNT 1 | head -n 1 >next && mv next "$1.last"; }
run 'cut 0 5 1'
try add
lost=$(cat added)
run 'put 6 ee'
try add
queue XDEL log "$lost" >removed
try take first
echo 8 >primary.shipped
try add
for name in first second; do
  [ $name = first ] || try take $name
  skip $name
  try take $name
done
redo -C primary dump >wanted
for name in first second; do redo -C $name dump | cmp - wanted && echo "$name: the same, $(tail -n 1 wanted)"; done
