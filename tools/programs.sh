#!/bin/sh
# Proves and builds the programs that the words name, and puts them into target/bin/. Each is run once, on no input.
cd "$(dirname "$0")/.." || exit 2
mkdir -p target/bin || exit 2
for name in "$@"; do
    (cd "crates/$name" && rm -f "out/$name" && rt run < /dev/null > /dev/null) || exit 1
    cp "crates/$name/out/$name" target/bin/ || exit 1
done
