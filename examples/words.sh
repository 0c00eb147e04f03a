# The words of the program, and its statuses.
try() { redo "$@" </dev/null; echo "status $?"; }

try run
try dump
try init 008 64 +65536
try init 8 64 65536
try dump
try
try help
try init --help
try run --help
try init 0 64 65536
try init 8 64 4223
try init 8 64
try run dump
try fly

for word in init run dump demo upgrade ship follow backup; do
  redo $word --help | grep Usage
done
