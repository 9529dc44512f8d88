#!/bin/sh
# Proves exports_c, builds the static library and puts it at target/staticlib/libexports.a.
cd "$(dirname "$0")/../crates/exports_c" || exit 2
rm -f out/libexports_c.a
rt lib || exit 1
mkdir -p ../../target/staticlib || exit 2
cp out/libexports_c.a ../../target/staticlib/libexports.a
