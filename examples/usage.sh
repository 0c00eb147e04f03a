# The scripts of a checkout tell how they are called where they are given a word that they do not know, and start nothing.
top=$(dirname "$(readlink -f "$(command -v redo)")")
try() {
  "$top/$1" "${@:2}" 2>&1 | sed -n 's/  *crates: .*//; /usage:/p'
  echo "status ${PIPESTATUS[0]}"
}
for script in release/make release/sources release/tool trials/run examples/check examples/log examples/check_store; do
  try $script --frobnicate
done
try .ci/run --help
