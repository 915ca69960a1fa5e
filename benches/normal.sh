#!/usr/bin/env bash
# Makes normal forms over long chains of definitions, and prints the processor time of each. The program's own conditions on what it declares
# aren't proved, so it is run by `rt try`, over the crates as they stand.
set -eu
top=$(cd "$(dirname "${BASH_SOURCE[0]}")/.." && pwd)
work=$(mktemp -d)
trap 'rm -rf "$work"' EXIT

mkdir -p "$work/crates/normal_times/src"
for crate in base_core fol_theory term_core env_theory env_core conv_core; do
    mkdir "$work/crates/$crate"
    for part in src specs proofs; do
        if [ -d "$top/crates/$crate/$part" ]; then cp -r "$top/crates/$crate/$part" "$work/crates/$crate/"; fi
    done
done
printf '%s\n' 'base_core: thiserror' 'fol_theory:' 'env_theory: fol_theory' 'term_core: fol_theory base_core' \
    'env_core: env_theory term_core fol_theory base_core indexmap' 'conv_core: env_core env_theory term_core fol_theory base_core' \
    'normal_times: conv_core env_core term_core base_core anyhow' >"$work/crates.txt"
if [ -f "$top/HANDLES" ]; then cp "$top/HANDLES" "$work/"; fi

cp "$top/benches/normal/main.txt" "$work/crates/normal_times/src/main.rt"
(cd "$work/crates/normal_times" && rt try --seconds 900 >"$work/times" 2>"$work/log") || { cat "$work/log" >&2; exit 1; }
cat "$work/times"
