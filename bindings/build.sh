#!/bin/bash
# Makes a shared library for ctypes: bindings/build.sh LIBRARY FOLDER makes FOLDER/libjt.so of
# LIBRARY, which is crates/jt_ffi/out/libjt_ffi.a of a checkout. `make shared` makes libjt.so.0.
set -euo pipefail
library=$(realpath "${1:?usage: bindings/build.sh LIBRARY FOLDER}")
folder=$(realpath "${2:?usage: bindings/build.sh LIBRARY FOLDER}")
here=$(realpath "$(dirname "$0")")/c
"${CC:-cc}" -O2 -fPIC -shared -o "$folder/libjt.so" "$here/heap.c" \
    -Wl,--version-script="$here/jt.map" -Wl,--whole-archive "$library" -Wl,--no-whole-archive
echo "$folder/libjt.so"
