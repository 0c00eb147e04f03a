# needs: command -v make && command -v dpkg-deb && command -v strip
# `make deb` packs what `make install` installs as a Debian package, which runs where it is unpacked under /; it is made without
# root's rights, and twice the same.
top=$(dirname "$(readlink -f "$(command -v redo)")")
"$top"/release/deb "$PWD/redo.deb" >/dev/null 2>&1
"$top"/release/deb "$PWD/again.deb" >/dev/null 2>&1
cmp redo.deb again.deb && echo "twice the same"
dpkg-deb -f redo.deb Package Architecture Depends
dpkg-deb -x redo.deb root
(cd root && find . ! -type d ! -path '*/shell/*' | LC_ALL=C sort)
root/usr/libexec/redo/redo demo --seed 7 --steps 0
