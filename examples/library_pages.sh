# needs: cc --version && python3 -c ''
# The tests of the library (capi/tests): of its pages of C and Python over a small store in place of the proved one, and of the
# library itself.
top=$(dirname "$(dirname "$(readlink -f "$0")")")
for library in "" "$top/release/libredo-x86_64-linux.so"; do
  "$top/capi/tests/check" ${library:+"$library"} >said || cat said
  tail -n 1 said | sed 's/^[0-9]* passed/all passed/'
done
