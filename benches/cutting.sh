#!/usr/bin/env bash
# Cuts 1 MB and 10 MB of lemmas into sentences and those into tokens, three times each, and prints the processor time of each; then the
# same by a plain C loop. The program is built as every program of the repository is, over the proved crates.
set -eu
top=$(cd "$(dirname "${BASH_SOURCE[0]}")/.." && pwd)
work=$(mktemp -d)
trap 'rm -rf "$work"' EXIT

mkdir -p "$work/crates/cutting_times/src"
for crate in base_core vern_lex; do
    mkdir "$work/crates/$crate"
    for part in src specs proofs; do
        if [ -d "$top/crates/$crate/$part" ]; then cp -r "$top/crates/$crate/$part" "$work/crates/$crate/"; fi
    done
done
printf '%s\n' 'base_core: thiserror' 'vern_lex: base_core thiserror' 'cutting_times: vern_lex base_core anyhow' >"$work/crates.txt"
if [ -f "$top/HANDLES" ]; then cp "$top/HANDLES" "$work/"; fi

cp "$top/benches/cutting/main.txt" "$work/crates/cutting_times/src/main.rt"
(cd "$work/crates/cutting_times" && rt run >"$work/times" 2>"$work/log") || { cat "$work/log" >&2; exit 1; }
sed 's/^/vern_lex: /' "$work/times"

${CC:-cc} -O2 -o "$work/plain" "$top/benches/cutting/plain.c"
"$work/plain" | sed 's/^/plain C: /'
