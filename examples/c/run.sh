#!/bin/sh
# Builds the C programs with warnings as errors, compares the header's constants with the
# library's, asks for terms of long byte strings, runs the programs on the sheets of `cases` and on
# the triples of `writes` and compares with the stored outputs.
# KIRVOGHUS_LIB names the library, from this folder.
cd "$(dirname "$0")" || exit 2
library=${KIRVOGHUS_LIB:-../../target/staticlib/libexports.a}
program=target/check
if [ ! -f "$library" ]; then
    echo "no library $library: run \`tools/library.sh\` at the top, or set KIRVOGHUS_LIB" >&2
    exit 2
fi
mkdir -p target || exit 2
for name in check constants terms two write; do
    ${CC:-cc} -std=c99 -Wall -Wextra -Werror -pedantic -O2 -g -pthread -I../../include $name.c "$library" -o target/$name || exit 2
done
# The header is C++ as well; asked where there is a compiler for it.
if command -v "${CXX:-c++}" > /dev/null; then
    "${CXX:-c++}" -fsyntax-only -x c++ -Wall -Wextra -Werror -pedantic ../../include/kirvoghus.h || exit 2
fi

failed=0
for name in constants terms; do
    if target/$name; then
        echo "ok        $name"
    else
        echo "DIFFERENT $name"
        failed=1
    fi
done

# A case by its name, the file of its expected output, and the exit status, which is 0 only for
# number 0.
compare() {
    case=$1 expected=$2 status=$3
    wanted=1
    read -r number _ < "$expected"
    [ "$number" = 0 ] && wanted=0
    if diff -u "$expected" target/output && [ "$status" = "$wanted" ]; then
        echo "ok        $case"
    else
        echo "DIFFERENT $case (exit status $status)"
        failed=1
    fi
}

while read -r case sheet options; do
    # The options are words of their own.
    "$program" $options "sheets/$sheet.sheet" > target/output
    compare "$case" "sheets/$case.expected" $?
done < cases

# Two plans side by side, each by its call: each gets the numbers that it gets alone.
before=
while read -r case sheet options; do
    call=
    for option in $options; do
        case $option in
            -s | -v) ;;
            --strict) call=--strict ;;
            *) continue 2 ;;
        esac
    done
    if [ -n "$before" ]; then
        target/two $before_call "sheets/$before_sheet.sheet" $call "sheets/$sheet.sheet" > target/output
        if { head -n 1 "sheets/$before.expected"; head -n 1 "sheets/$case.expected"; } | diff -u - target/output; then
            echo "ok        $before beside $case"
        else
            echo "DIFFERENT $before beside $case"
            failed=1
        fi
    fi
    before=$case before_sheet=$sheet before_call=$call
done < cases

# 2,001 lines, on standard input.
awk 'BEGIN { for (i = 0; i < 2001; i++) printf "%3d%20d%5d\n", 41, 0, 0 }' > target/long.sheet
"$program" < target/long.sheet > target/output
compare long sheets/long.expected $?

while read -r case triples options; do
    target/write $options "triples/$triples.triples" > target/output
    compare "triples $case" "triples/$case.expected" $?
done < writes

# 7 as products of products: the triples, and the sheet as `printf` has it, of so many lines.
long() {
    awk -v lines="$1" -v form="$2" 'BEGIN {
        printf form, 3, 0, 0
        for (at = 4; at < lines; at++) printf form, 16, 0, 1
        printf form form form, 12, 1, 0, 4, 0, 0, 22, 7, 0
    }'
}
# 2,000 triples, and 2,001, on standard input.
{ cat triples/longest.expected; long 2000 '%3d%20d%5d\n'; } > target/longest.expected
long 2000 '%d %d %d\n' > target/longest.triples
target/write -c < target/longest.triples > target/output
compare "triples longest" target/longest.expected $?
long 2001 '%d %d %d\n' > target/too-long.triples
target/write -o 29 < target/too-long.triples > target/output
compare "triples too-long" triples/too-long.expected $?

exit $failed
