# A standby follows a primary's log, here by a pipe from one folder to another. It takes whole frames, passes over those that it has,
# says where a stream is cut, has a gap or is another one's, and at last takes the primary's place.
store() { mkdir "$1" && redo -C "$1" init 8 64 65536; }
run() { printf '%s\n' "${@:2}" | redo -C "$1" run; }
ship() { redo -C primary ship "$1" 2>/dev/null; }
follow() {
  redo -C "$1" follow 2>/dev/null
  echo "status $?"
}
for name in primary standby other late; do store $name; done

run primary 'put 0 aa' 'get 0' force
ship 1 | od -An -v -tx1
ship 1 | follow standby
ship 1 | follow standby
run standby 'get 0'
ship 5
echo "status $?"

echo "- the stream is cut; a record is missing; it comes byte by byte"
ship 1 | head -c 22 | follow late
run primary 'copy 0 1' force
ship 2 | follow late
ship 1 | dd bs=1 2>/dev/null | follow late

echo "- of a group all is followed or none"
run primary begin 'put 2 64' 'put 3 00' end force
ship 2 | head -c 60 | follow standby
redo -C standby dump
ship 2 | follow standby
redo -C standby dump

echo "- bytes that are no frame; a command that does not fit the values"
printf '\0\0\0\0' | follow standby
run other 'put 0 0102030405' 'put 1 -' 'put 2 -' 'put 3 -' 'cut 0 1 3' force >said
redo -C other ship 5 | follow standby

echo "- a log that begins later, after a trim"
run primary drain trim 'put 4 dd' force
ship 1
echo "status $?"
ship 5 | follow standby
store fresh
ship 5 | follow fresh
redo -C primary backup ../second
ship 5 | follow second

echo "- the primary is lost"
redo -C primary dump >wanted
redo -C second dump | cmp - wanted
rm -r primary
run standby 'swap 2 3' force
redo -C standby dump
