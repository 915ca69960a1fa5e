#!/usr/bin/env bash
# Puts ids into a graph of 1,000 and of 1,000,000 ids and makes edits with their repair in the middle, and prints the processor time of
# each. The program is built as `rt try` builds, with its checks, so the figures show how the costs grow, and not what they are.
set -eu
top=$(cd "$(dirname "${BASH_SOURCE[0]}")/.." && pwd)
work=$(mktemp -d)
trap 'rm -rf "$work"' EXIT

mkdir -p "$work/crates/edit_times/src"
for crate in base_core line_theory vcs_graph edit_core; do
    mkdir "$work/crates/$crate"
    for part in src specs proofs; do
        if [ -d "$top/crates/$crate/$part" ]; then cp -r "$top/crates/$crate/$part" "$work/crates/$crate/"; fi
    done
done
grep -E '^(base_core|line_theory|vcs_graph|edit_core):' "$top/crates.txt" >"$work/crates.txt"
echo 'edit_times: edit_core vcs_graph anyhow' >>"$work/crates.txt"

cp "$top/benches/edits/main.txt" "$work/crates/edit_times/src/main.rt"
(cd "$work/crates/edit_times" && rt try --seconds 900 >"$work/times" 2>"$work/log") || { cat "$work/log" >&2; exit 1; }
cat "$work/times"
