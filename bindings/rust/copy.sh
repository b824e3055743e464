#!/bin/bash
# Copies the crate to a new folder with all that it publishes: bindings/rust/copy.sh FOLDER
#
# heap.c, jt.h and the licences are files of the tree around the crate. cargo packages only what is
# in the crate's folder, so `cargo package` runs in such a copy.
set -eu
here=$(realpath "$(dirname "$0")")
mkdir -p "$1/c"
cp -r "$here/." "$1"
rm -rf "$1/Cargo.lock" "$1/target"
cp "$here/../c/heap.c" "$here/../c/jt.h" "$1/c"
cp "$here/../../LICENSE-MIT" "$here/../../LICENSE-APACHE" "$1"
