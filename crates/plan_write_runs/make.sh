#!/bin/sh
# Makes data/, args and stdout anew: plans as people write them, their names, and below each name what `reference
# write` says of it. KIRVOGHUS_REFERENCE names the judge, from the top.
cd "$(dirname "$0")/../.." || exit 2
judge=${KIRVOGHUS_REFERENCE:-reference/target/release/reference}
crate=crates/plan_write_runs
if [ ! -x "$judge" ]; then
    echo "no program $judge: build reference, or set KIRVOGHUS_REFERENCE" >&2
    exit 2
fi
rm -rf $crate/data && mkdir $crate/data || exit 2
: > $crate/args

# A name, and the plan in printf's form.
plan() {
    echo "$1" >> $crate/args
    printf -- "$2" > "$crate/data/$1" || exit 2
}

# A name, and lines from standard input.
lines() {
    echo "$1" >> $crate/args
    cat > "$crate/data/$1" || exit 2
}

# Sheets: as plans are written, and what does not count.
for name in seven lambda arms identity catalogue named; do
    awk '{ print $1, $2, $3 }' examples/c/sheets/$name.sheet | lines $name
done
plan no-end '3 0 0\n12 1 0\n4 0 0\n22 7 0'
plan crlf '3 0 0\r\n12 1 0\r\n4 0 0\r\n22 7 0\r\n'
plan blanks '\t3  0\t0 \r\n\n \t\r\n12\r1\t\r 0\n4 0 0\n\n\n  22 7 0\t'
plan comments '#\n# 5 5\n3 0 0\n \t# x\n12 1 0\n#\r\n##\n4 0 0\n22 7 0\n#'
plan least '3 0 0\n12 1 0\n4 0 0\n22 -9223372036854775808 0\n'
plan highest '3 0 0\n12 1 0\n4 0 0\n22 9223372036854775807 0\n'
plan minus-one '3 0 0\n12 1 0\n4 0 0\n22 -1 0\n'

# No triple.
plan empty ''
plan only-blanks ' \t\r\n\n \n'
plan only-comments '# 3 0 0\n\t# 12 1 0'

# No number.
plan below-least '3 0 0\n12 1 0\n4 0 0\n22 -9223372036854775809 0\n'
plan above-highest '3 0 0\n12 1 0\n4 0 0\n22 9223372036854775808 0\n'
plan minus-zero '3 -0 0\n'
plan leading-zero '3 0 0\n012 1 0\n'
plan plus '3 0 0\n12 +1 0\n'
plan minus-alone '3 0 0\n12 - 0\n'
plan letter '3 0 0\n12 1 o\n'
plan comma '3, 0, 0\n'
plan point '3 0.0 0\n'
plan byte-0 '3 0 0\n12 \0001 0\n'
plan form-feed '3 0 0\n12\f1 0\n'
plan accent '3 0 0\n12 1 0\303\251\n'
plan comment-behind '3 0 0\n12 1 0 # Int\n'
plan comment-at-number '3 0 0\n12#1 0\n'
plan fourth-no-number '3 0 0 x\n'

# Fewer than three numbers, or more.
plan one '3 0 0\n12\n'
plan two '3 0 0\n\n12 1\n'
plan two-at-end '3 0 0\n12 1'
plan four '3 0 0\n12 1 0 0\n'
plan five '3 0 0\n12 1 0 0 0\n'
plan two-lines-in-one '3 0 0 12 1 0\n'

# A triple that can't continue the plan.
plan no-kind '3 0 0\n5 0 0\n'
plan kind-1000 '3 0 0\n1000 0 0\n'
plan kind-below-zero '-3 0 0\n'
plan no-kind-negative '3 0 0\n5 -1 0\n'
plan negative-name '2 10 0\n12 1 0\n3 0 0\n12 1 0\n4 0 0\n21 -10 0\n'
plan negative-unused '3 0 0\n13 -1 0\n'
plan name-0 '3 0 0\n12 0 0\n'
plan name-10000 '# no such name\n\n3 0 0\n12 10000 0\n'
plan operator-7 '3 0 0\n12 1 0\n4 0 0\n28 7 0\n22 1 0\n22 2 0\n'
plan count-100 '3 0 0\n16 0 100\n'
plan count-100000 '3 0 0\n16 0 100000\n'
plan count-below-zero '3 0 0\n16 0 -1\n'
plan count-unused '3 0 0\n12 1 1\n'
plan value-unused '3 1 0\n'
plan literal-count '3 0 0\n12 1 0\n4 0 0\n22 -7 1\n'
plan term-for-type '3 0 0\n22 7 0\n'
plan no-expected '4 0 0\n22 7 0\n'
plan after-the-plan '3 0 0\n12 1 0\n4 0 0\n22 7 0\n\n22 8 0\n'

# A triple lacks.
plan lacking '3 0 0\n# Int\n12 1 0\n\n'
plan lacking-argument '3 0 0\n12 1 0\n4 0 0\n24 0 0\n22 7 0'

# The first wrong line.
plan triple-then-fault '3 0 0\n22 7 0\n12 1\n'
plan fault-then-triple '3 0 0\n12 1\n22 7 0\n'
plan lacking-then-fault '3 0 0\n12 1 0\nx\n'
plan plan-then-fault '3 0 0\n12 1 0\n4 0 0\n22 7 0\n0\n'
plan two-faults '3 0 0\n12 1 0 0\n4 0\n'

# 2,000 triples and a comment, in more blocks than one; and a triple more.
most() {
    awk 'BEGIN {
        print "1 20 0\n12 30 0\n3 0 0\n12 30 0\n4 0 0"
        for (at = 0; at < 1994; at++) print "# argument", at, "of a constructor\n26 20 1"
        print "26 20 0\n# the end"
    }'
}
most | lines most
{ most; echo 26 20 0; } | lines one-more

while read -r name; do
    echo "$name"
    "$judge" write < "$crate/data/$name" || exit 2
done < $crate/args > $crate/stdout
