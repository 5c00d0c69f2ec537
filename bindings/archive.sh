#!/bin/sh
# Proves the library, where it has changed, and writes the archive that C and Rust link: target/staticlib/libtolkjirp.a.
cd "$(dirname "$0")/.." || exit 1
(cd crates/tolkjirp_c && rt lib) || exit 1
mkdir -p target/staticlib || exit 1
cp crates/tolkjirp_c/out/libtolkjirp_c.a target/staticlib/libtolkjirp.a
