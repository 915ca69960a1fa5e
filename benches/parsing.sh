#!/usr/bin/env bash
# Reads 1 MB and 10 MB of expressions from their tokens, one expression of each size, and 1 MB and 10 MB of lemmas as whole sentences,
# and prints the processor time of each. The program is built as every program of the repository is, over the proved crates.
set -eu
top=$(cd "$(dirname "${BASH_SOURCE[0]}")/.." && pwd)
work=$(mktemp -d)
trap 'rm -rf "$work"' EXIT

mkdir -p "$work/crates/parsing_times/src"
for crate in base_core vern_lex vern_grammar vern_sentence vern_parse; do
    mkdir "$work/crates/$crate"
    for part in src specs proofs; do
        if [ -d "$top/crates/$crate/$part" ]; then cp -r "$top/crates/$crate/$part" "$work/crates/$crate/"; fi
    done
done
grep -E '^(base_core|vern_lex|vern_grammar|vern_sentence|vern_parse):' "$top/crates.txt" >"$work/crates.txt"
echo 'parsing_times: vern_parse vern_lex base_core anyhow' >>"$work/crates.txt"
if [ -f "$top/HANDLES" ]; then cp "$top/HANDLES" "$work/"; fi

cp "$top/benches/parsing/main.txt" "$work/crates/parsing_times/src/main.rt"
(cd "$work/crates/parsing_times" && rt run >"$work/times" 2>"$work/log") || { cat "$work/log" >&2; exit 1; }
cat "$work/times"
