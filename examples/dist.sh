# needs: command -v make
# `make dist` packs what runs without the sources; what is unpacked has the pages, and installs what a checkout installs.
top=$(dirname "$(readlink -f "$(command -v redo)")")
mkdir copy
tar c -C "$top" --exclude=./crates --exclude=./.git --exclude='./out*' . | tar x -C copy
make -s -C copy dist
tar xzf copy/redo-*.tar.gz
make -s -C redo-*/ install DESTDIR="$PWD/from_pack"
make -s -C "$top" install DESTDIR="$PWD/from_checkout"
diff -r from_pack from_checkout && echo alike
ls redo-*/docs/SCRIPT.md | sed 's/^redo-[0-9.]*/redo/'
redo-*/release/redo-x86_64-linux demo --seed 7 --steps 0
