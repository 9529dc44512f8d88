#!/bin/sh
# Runs plan_explain on the sheets of `cases` and of `large.awk` and compares with the stored outputs.
# KIRVOGHUS_EXPLAIN names the program, from this folder.
cd "$(dirname "$0")" || exit 2
program=${KIRVOGHUS_EXPLAIN:-../../target/bin/plan_explain}
if [ ! -x "$program" ]; then
    echo "no program $program: run \`tools/programs.sh plan_explain\` at the top, or set KIRVOGHUS_EXPLAIN" >&2
    exit 2
fi
mkdir -p target || exit 2

failed=0
# A case's output beside the stored output.
compare() {
    case=$1 sheet=$2
    if "$program" < "$sheet" > target/output && diff -u "sheets/$case.expected" target/output; then
        echo "ok        $case"
    else
        echo "DIFFERENT $case"
        failed=1
    fi
}

while read -r case sheet; do
    compare "$case" "$sheet"
done < cases

for result in 3 15 21 22 23 24 25; do
    awk -v result=$result -f large.awk > target/large.sheet || exit 2
    compare "large-$result" target/large.sheet
done

exit $failed
