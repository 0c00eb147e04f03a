# needs: command -v make
# `make install` puts program, manual page and completion in place, and `make uninstall` takes them away. The command that is
# installed tells its version and its help, starts no other program than redo, takes at most twice the time of that, and makes no
# new store over the log of an old one.
top=$(dirname "$(readlink -f "$(command -v redo)")")
try() { usr/bin/redo "$@" 2>/dev/null; echo "status $?"; }
room=$PWD
make -s -C "$top" install PREFIX="$room/usr"
(cd usr && find . -type f | sed 's|\(/shell/\).*|\1..|' | LC_ALL=C sort -u)
try --version
try init --help | tail -n 1
mkdir store
try -C store init 8 64 65536
printf 'put 0 aa\nforce\n' | try -C store run
{ seq -f 'put 1 %0128.0f' 200; echo force; } | (ulimit -f 1; try -C store run) | tail -n 1
try help frobnicate

echo 'get 0' >script
PATH=/nowhere usr/bin/redo -C store run <script
# the least microseconds of ten runs
least() {
  for _ in {1..10}; do
    local begun=${EPOCHREALTIME/[.,]/}
    "$@" -C store run <script >answers
    echo $((${EPOCHREALTIME/[.,]/} - begun))
  done | sort -n | head -n 1
}
# (other work on the machine may hold up each)
for _ in {1..50}; do
  [ "$(least usr/bin/redo)" -gt $((2 * $(least usr/libexec/redo/redo))) ] || { echo "at most twice" && break; }
done

look() { usr/bin/"$@" 2>&1; echo "status $?"; }
look redo_log --help
look redo_log -C store | sed -n '$p;s/put 0 aa/&/p'
look redo_check -C store | tail -n 1
look redo_check store

printf X | dd of=store/objects.rdo conv=notrunc 2>/dev/null
try -C store dump
try -C store init 8 64 65536
rm store/log_?.rdo
try -C store init 8 64 65536
make -s -C "$top" uninstall PREFIX="$room/usr"
find usr -type f
