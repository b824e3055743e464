#!/bin/bash
# Lets cargo resolve the crate without a network: bindings/rust/offline.sh CARGO_HOME
#
# Writes a configuration that takes serde from Debian's registry of crates (librust-serde-dev). If
# that is not installed, it takes a crate serde that has no code: the feature serde is off then.
set -eu
home=$(realpath "${1:?usage: bindings/rust/offline.sh CARGO_HOME}")
registry=/usr/share/cargo/registry
if ! ls -d $registry/serde-1* > /dev/null 2>&1; then
    registry=$home/registry
    mkdir -p "$registry/serde/src"
    touch "$registry/serde/src/lib.rs"
    printf '[package]\nname = "serde"\nversion = "1.0.100"\n\n[features]\nstd = []\n' \
        > "$registry/serde/Cargo.toml"
    echo '{"files":{}}' > "$registry/serde/.cargo-checksum.json"
fi
printf '[source.crates-io]\nreplace-with = "local"\n\n[source.local]\ndirectory = "%s"\n' \
    "$registry" > "$home/config.toml"
