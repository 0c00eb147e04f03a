# A failover by hand. The old primary goes on, unfenced: a plain follow passes over what it ships of its own, `--same` compares it
# with what the standby has, and refuses it. When it comes back it is refused the same way, and begins anew from a backup.
store() { mkdir "$1" && redo -C "$1" init 8 64 65536; }
run() { printf '%s\n' "${@:2}" | redo -C "$1" run; }
follow() {
  redo -C "$1" follow "${@:2}" <frames 2>/dev/null
  echo "status $?"
}
for name in a b; do store $name; done

run a 'put 0 aa' 'put 1 bb' force
redo -C a ship 1 >frames
follow b --same

echo "- b is promoted; a goes on"
run b 'put 2 01' force
run a 'put 2 02' force
redo -C a ship 1 >frames
follow b
follow b --same

echo "- a comes back, as a standby of b"
redo -C b ship 1 >frames
follow a --same
mv a a.old
redo -C b backup ../a
follow a --same

echo "- what is no longer in the log"
run b drain trim 'put 3 03' force
redo -C a.old ship 1 >frames
follow b --same
