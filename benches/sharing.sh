#!/usr/bin/env bash
# Copies, changes and keeps contexts, formulas and terms, three times each, and prints the processor time of each; then the memory that
# 10,000 kept contexts take. The program is built as every program of the repository is, over the proved crates.
set -eu
top=$(cd "$(dirname "${BASH_SOURCE[0]}")/.." && pwd)
work=$(mktemp -d)
trap 'rm -rf "$work"' EXIT

mkdir -p "$work/crates/sharing_times/src"
for crate in base_core fol_theory term_core; do
    mkdir "$work/crates/$crate"
    for part in src specs proofs; do
        if [ -d "$top/crates/$crate/$part" ]; then cp -r "$top/crates/$crate/$part" "$work/crates/$crate/"; fi
    done
done
printf '%s\n' 'base_core: thiserror' 'fol_theory:' 'term_core: fol_theory base_core' 'sharing_times: term_core base_core anyhow' >"$work/crates.txt"
if [ -f "$top/HANDLES" ]; then cp "$top/HANDLES" "$work/"; fi

cp "$top/benches/sharing/main.txt" "$work/crates/sharing_times/src/main.rt"
(cd "$work/crates/sharing_times" && rt run >"$work/times" 2>"$work/log") || { cat "$work/log" >&2; exit 1; }
cat "$work/times"
program=$(find "$work/crates/sharing_times/out" -type f -perm -u+x -name 'sharing_times*' | head -1)
/usr/bin/time -f 'memory with 10,000 copies kept: %M KB' "$program" keep
