#!/usr/bin/env bash
# Checks trees of some 100,000 rules over contexts of 10, 1,000 and 100,000 hypotheses by the program kernel_trial, and prints the
# processor time of a rule: that of the row with the tree, without that of the same row with a first rule that is refused.
set -eu
top=$(cd "$(dirname "${BASH_SOURCE[0]}")/.." && pwd)
work=$(mktemp -d)
trap 'rm -rf "$work"' EXIT
(cd "$top/crates/kernel_trial" && rt run </dev/null >/dev/null 2>"$work/log") || { cat "$work/log" >&2; exit 1; }
exec python3 - "$top/crates/kernel_trial/out/kernel_trial" "$work" <<'END'
import resource
import subprocess
import sys

program, work = sys.argv[1:]
DECLARED = ["Parameter T : Set.", "Parameter Q : Prop.", "Parameter P : T -> Prop.", "Axiom q : Q.",
            "Axiom e : exists x : T, P x.", "Definition g0 : Prop := Q."]
DECLARED += [f"Definition g{n} : Prop := g{n - 1} /\\ g{n - 1}." for n in range(1, 16)]


def pairs(number, leaf):
    return leaf if number == 0 else f"(AndI g{number - 1} g{number - 1})" + pairs(number - 1, leaf) * 2


def seconds(row):
    with open(work + "/rows", "w") as rows:
        rows.write("\n".join(DECLARED + [row]) + "\n")
    before = resource.getrusage(resource.RUSAGE_CHILDREN).ru_utime
    with open(work + "/rows") as rows:
        told = subprocess.run([program], stdin=rows, capture_output=True, check=True).stdout.decode().split("\n")[-2].strip()
    return resource.getrusage(resource.RUSAGE_CHILDREN).ru_utime - before, told


def measured(words, entries, goal, rules, count):
    context = "(" + "(hyp Q)" * entries + ")"
    best, told = min(seconds(f"({context} {goal} ({rules}))") for _ in range(3))
    idle, refused = min(seconds(f"({context} {goal} ((FalseE)(TrueI){rules}))") for _ in range(3))
    assert (told, refused) == ("proof", "no proof"), (told, refused)
    print(f"{entries} hypotheses, {count} rules, {words}: {best - idle:.3f} s, {(best - idle) / count * 1e9:.0f} ns a rule", flush=True)


for entries in (10, 1_000, 100_000):
    measured("conversions", entries, "Q", "(Conv Q)" * 100_000 + "(Stated q)", 100_001)
    measured("cuts", entries, "Q", "(Cut Q)(Stated q)" * 50_000 + "(Stated q)", 100_001)
    measured("witnesses", entries, "Q", "(ExE T (P 0))(Stated e)" * 50_000 + "(Stated q)", 100_001)
    measured("pairs of what is stated", entries, "g15", pairs(15, "(Stated q)"), 65_535)
    measured("pairs of the newest hypothesis", entries, "g15", pairs(15, f"(Hyp {entries - 1})"), 65_535)
    measured("the newest hypothesis dropped, and the next used", entries, "g15", pairs(15, f"(Drop {entries - 1})(Hyp {entries - 2})"), 98_303)
    if entries <= 1_000:
        measured("pairs of the oldest hypothesis", entries, "g15", pairs(15, "(Hyp 0)"), 65_535)
END
