#!/usr/bin/env bash
# Declares 15 doublings (65,535 nodes) and 500,000 aliases on the last by the program kernel_trial, and prints the processor time of that, and
# of rows behind them: the normal form of the last alias, and whether it is the same as other formulas.
set -eu
top=$(cd "$(dirname "${BASH_SOURCE[0]}")/.." && pwd)
work=$(mktemp -d)
trap 'rm -rf "$work"' EXIT
(cd "$top/crates/kernel_trial" && rt run </dev/null >/dev/null 2>"$work/log") || { cat "$work/log" >&2; exit 1; }
exec python3 - "$top/crates/kernel_trial/out/kernel_trial" "$work" <<'END'
import resource
import subprocess
import sys

program, work = sys.argv[1:]
declared = ["Parameter Q : Prop.", "Definition d0 : Prop := Q."]
declared += [f"Definition d{n} : Prop := d{n - 1} /\\ d{n - 1}." for n in range(1, 16)]
declared += ["Definition a0 : Prop := d15."] + [f"Definition a{n} : Prop := a{n - 1}." for n in range(1, 500_000)]


def seconds(rows):
    with open(work + "/rows", "w") as out:
        out.write("\n".join(declared + rows) + "\n")
    before = resource.getrusage(resource.RUSAGE_CHILDREN).ru_utime
    with open(work + "/rows") as stdin, open(work + "/told", "w") as stdout:
        subprocess.run([program], stdin=stdin, stdout=stdout, check=True)
    told = subprocess.run(["tail", "-n", "1", work + "/told"], capture_output=True, check=True).stdout.decode().strip()
    return resource.getrusage(resource.RUSAGE_CHILDREN).ru_utime - before, told


idle, told = min(seconds([]) for _ in range(3))
print(f"{len(declared)} definitions: {idle:.3f} s, {idle / len(declared) * 1e6:.1f} us a definition, the last {told}", flush=True)
for row in ("(normal a499999 d15)", "(same a499999 a499998)", "(same a499999 a0)", "(same a499999 (and d14 d14))", "(same a499999 Q)"):
    best, told = min(seconds([row] * 50) for _ in range(3))
    print(f"{row}: {told}, {(best - idle) / 50 * 1e3:.1f} ms", flush=True)
END
