#!/usr/bin/env bash
# Prints formulas of 65,535 nodes with few and many names taken, and binders of one name within one another, and prints the processor time of
# each. The program is built as every program of the repository is, over the proved crates.
set -eu
top=$(cd "$(dirname "${BASH_SOURCE[0]}")/.." && pwd)
work=$(mktemp -d)
trap 'rm -rf "$work"' EXIT

mkdir -p "$work/crates/printing_times/src"
crates='base_core vern_lex vern_grammar vern_sentence fol_theory env_theory elab_theory term_core print_theory term_print'
for crate in $crates; do
    mkdir "$work/crates/$crate"
    for part in src specs proofs; do
        if [ -d "$top/crates/$crate/$part" ]; then cp -r "$top/crates/$crate/$part" "$work/crates/$crate/"; fi
    done
    grep -E "^$crate:" "$top/crates.txt" >>"$work/crates.txt"
done
echo 'printing_times: term_print term_core fol_theory base_core indexmap anyhow' >>"$work/crates.txt"
if [ -f "$top/HANDLES" ]; then cp "$top/HANDLES" "$work/"; fi

cp "$top/benches/printing/main.txt" "$work/crates/printing_times/src/main.rt"
(cd "$work/crates/printing_times" && rt run --jobs 1 >"$work/times" 2>"$work/log") || { cat "$work/log" >&2; exit 1; }
cat "$work/times"
