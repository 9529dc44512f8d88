#!/bin/sh
# Runs the C programs under valgrind's memory checker: on plans of the recorded answers, up to 20
# of each call and result number, on some of these cut short or misspelt, on the sheets of `cases`
# and on the triples of `writes`.
# The seven numbers are compared with the recorded ones. KIRVOGHUS_LIB is as in run.sh.
# Last line: how many sheets, and on how many of them the checker found an error or the numbers
# are others. Exit status: 0 if there are 200 sheets and no error, 2 if nothing was run, else 1.
# All numbers but 16 are met, which no run gives.
cd "$(dirname "$0")" || exit 2
recorded=../../crates/replay/stdin
if ! command -v valgrind > /dev/null; then
    echo "no valgrind" >&2
    exit 2
fi
rm -rf target/memcheck
mkdir -p target/memcheck || exit 2
./run.sh > target/run.log || { cat target/run.log; exit 2; }

# The format of a record is told in reference/src/record.rs. Writes N.sheet and N.expected, and
# N and its options to the list.
awk -v folder=target/memcheck -v most=20 '
function sheet(lines, last,    at, file) {
    file = folder "/" ++count ".sheet"
    for (at = 0; at < lines; at++)
        printf "%3s%20s%5s%s", $(4 + 3 * at), $(5 + 3 * at), $(6 + 3 * at), at < lines - 1 ? "\n" : last > file
    close(file)
}
function expected(text, options,    file) {
    file = folder "/" count ".expected"
    print text > file
    close(file)
    print count, options > folder "/list"
}
function seven(a, b, c, d, e, f, g) {
    return sprintf("%6s%6s%6s%6s%6s%6s%6s", a, b, c, d, e, f, g)
}
# Raw records, 3 and 4, carry other buffers and limits than the program has.
/^#/ || $1 > 2 { next }
{ call = $1; lines = $3; at = 4 + 3 * lines; number = $at; key = call " " number }
FNR == NR { of[key]++; next }
{
    met = seen[key]++
    if (met > 0 && int(met * most / of[key]) == int((met - 1) * most / of[key]))
        if (of[key] > most)
            next
    options = "-s -v" (call == 2 ? " --strict" : "")
    sheet(lines, "\n")
    expected(seven(number, $(at + 1), $(at + 2), $(at + 3), $(at + 4), $(at + 5), $(at + 6)), options " -c " $2)
    # Without the last LF, and with a space for it: document 01 says 3, and 4 with the line.
    if (++chosen % 20 == 1) {
        sheet(lines, "")
        expected(seven(3, 0, 0, 0, 0, 0, 0), options)
        sheet(lines, " ")
        expected(seven(4, lines, 0, 0, 0, 0, 0), options)
    }
}' "$recorded" "$recorded" || exit 2

sheets=0
errors=0
# A program, its sheet or triples, the file whose first line is expected, and the options.
run() {
    program=$1 sheet=$2 wanted=$3
    shift 3
    valgrind --tool=memcheck --error-exitcode=99 -q "target/$program" "$@" "$sheet" > target/output 2> target/errors
    status=$?
    sheets=$((sheets + 1))
    head -n 1 "$wanted" > target/wanted
    head -n 1 target/output > target/first
    read -r number _ < target/wanted
    echo "$number" >> target/memcheck/numbers
    if [ $status -ge 2 ] || [ -s target/errors ] || ! cmp -s target/wanted target/first; then
        errors=$((errors + 1))
        echo "$sheet $* (exit status $status)"
        diff target/wanted target/first
        cat target/errors
    fi
}

while read -r name options; do
    run check "target/memcheck/$name.sheet" "target/memcheck/$name.expected" $options
done < target/memcheck/list
while read -r case sheet options; do
    run check "sheets/$sheet.sheet" "sheets/$case.expected" $options
done < cases
run check target/long.sheet sheets/long.expected
while read -r case triples options; do
    run write "triples/$triples.triples" "triples/$case.expected" $options
done < writes
run write target/longest.triples triples/longest.expected
run write target/too-long.triples triples/too-long.expected

echo "sheets by result number:"
sort -n target/memcheck/numbers | uniq -c | awk '{ printf "%4d %4d\n", $2, $1 }'
echo "$sheets sheets, $errors errors"
[ $sheets -ge 200 ] && [ $errors = 0 ]
