#!/bin/sh
# Runs plan_write as people do: every stored plan, its sheet on standard output or a sentence on standard error, never
# both, as `plan_write_runs` has them; and the first plan through plan_check. KIRVOGHUS_BIN names the folder of the
# programs, from this folder.
cd "$(dirname "$0")" || exit 2
bin=${KIRVOGHUS_BIN:-../../target/bin}
runs=../../crates/plan_write_runs
for program in plan_write plan_check; do
    if [ ! -x "$bin/$program" ]; then
        echo "no program $bin/$program: run \`tools/programs.sh plan_write plan_check\` at the top, or set KIRVOGHUS_BIN" >&2
        exit 2
    fi
done
mkdir -p target || exit 2

failed=0
told() {
    if [ "$1" = 0 ]; then
        echo "ok        $2"
    else
        echo "DIFFERENT $2"
        failed=1
    fi
}

# One of the two outputs is empty; with the name before it the other is the stored one's part.
: > target/all
while read -r plan; do
    "$bin/plan_write" < "$runs/data/$plan" > target/sheet 2> target/sentence
    { echo "$plan"; cat target/sheet target/sentence; } >> target/all
    grep -q '^plan_write: ' target/sheet
    sentence_on_output=$?
    [ "$sentence_on_output" = 1 ] && { [ ! -s target/sheet ] || [ ! -s target/sentence ]; }
    told $? "$plan"
done < "$runs/args"
cmp target/all "$runs/stdout"
told $? "all stored runs"

"$bin/plan_write" < ../../crates/plan_write/stdin | "$bin/plan_check" | cmp - ../../crates/plan_check/stdout
told $? "written and checked"

exit $failed
