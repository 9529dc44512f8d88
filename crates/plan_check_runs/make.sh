#!/bin/sh
# Makes data/, args and stdout anew: sheets, their names, and what `reference answer` says of each, the name before
# the seven numbers. KIRVOGHUS_REFERENCE names the judge, from the top.
cd "$(dirname "$0")/../.." || exit 2
judge=${KIRVOGHUS_REFERENCE:-reference/target/release/reference}
crate=crates/plan_check_runs
if [ ! -x "$judge" ]; then
    echo "no program $judge: build reference, or set KIRVOGHUS_REFERENCE" >&2
    exit 2
fi
rm -rf $crate/data && mkdir $crate/data || exit 2

# Accepted, then by number.
small="seven lambda arms identity catalogue named empty cut misspelt unfit lacking unbound constructor not-a-function
    pattern bool universal types instantiation print intrinsic"
large="result-21 result-22 result-23 result-24 result-25"
long="long-unread long-type long-catalogue long-misspelt one-byte-more"

for name in $small; do
    cp examples/c/sheets/$name.sheet $crate/data/$name || exit 2
done
for name in $large; do
    awk -v result=${name#result-} -f examples/explain/large.awk > $crate/data/$name || exit 2
done

# A type of 991 nodes written out, near the limit of 1,024. Each of 2,000 lines: a Constructor whose arguments nobody
# reads; and 498 entries of either kind, under a sum that names the first and the last. Then its last LF missing, and
# one byte more.
line='function line(kind, value, count) { printf "%3d%20d%5d\n", kind, value, count }'
awk "$line"' function type(at, part) {
    line(16, 0, 99)
    for (at = 0; at < 99; at++) { line(16, 0, 9); for (part = 0; part < 9; part++) line(12, 1, 0) }
}
BEGIN { line(2, 40, 0); type(); line(3, 0, 0); type(); line(4, 0, 0); line(21, 40, 0) }' > $crate/data/long-type || exit 2
awk "$line"' BEGIN {
    line(1, 20, 0); line(12, 30, 0); line(3, 0, 0); line(12, 30, 0); line(4, 0, 0)
    for (at = 0; at < 1994; at++) line(26, 20, 1)
    line(26, 20, 0)
}' > $crate/data/long-unread || exit 2
awk "$line"' BEGIN {
    for (kind = 1; kind <= 2; kind++)
        for (name = 10; name < 508; name++) { line(kind, name, 0); line(12, 1, 0) }
    line(3, 0, 0); line(12, 1, 0); line(4, 0, 0)
    line(28, 1, 0); line(28, 2, 0); line(21, 507, 0); line(21, 10, 0); line(22, 7, 0)
}' > $crate/data/long-catalogue || exit 2
{ head -c 57999 $crate/data/long-catalogue; printf ' '; } > $crate/data/long-misspelt || exit 2
{ cat $crate/data/long-catalogue; printf ' '; } > $crate/data/one-byte-more || exit 2

for name in $small $large $long; do
    echo "$name"
done > $crate/args
while read -r name; do
    told=$("$judge" answer < "$crate/data/$name" | sed -n 1p)
    [ -n "$told" ] || exit 2
    printf '%s%s\n' "$name" "$told"
done < $crate/args > $crate/stdout
