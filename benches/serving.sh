#!/bin/sh
# Times the program on sessions of Adds and a Quit, written to a file: 100,000 and 1,000,000 Adds of one sentence, and one
# Add of 10,000, of 20,000 and of 40,000 sentences. Prints seconds, processor time, and the most memory that was in use.
set -e
top=$(cd "$(dirname "$0")/.." && pwd)
work=$(mktemp -d)
trap 'rm -rf "$work"' EXIT
"$top/sertop" < /dev/null
timed() {
    echo "$1:"
    /usr/bin/time -f '%e seconds, %U in the program, %S in the system, %M KB' "$top/crates/sertop/out/sertop" < "$work/input" > "$work/output"
    tail -n 1 "$work/output"
}
for count in 100000 1000000; do
    awk -v count="$count" 'BEGIN { for (i = 0; i < count; i++) printf "(Add () \"Parameter a%d : Prop.\")\n", i; print "Quit" }' > "$work/input"
    timed "$count Adds of one sentence"
done
for count in 10000 20000 40000; do
    awk -v count="$count" 'BEGIN { printf "(Add () \""; for (i = 0; i < count; i++) printf "Parameter a%d : Prop.\n", i; print "\")"; print "Quit" }' > "$work/input"
    timed "one Add of $count sentences"
done
