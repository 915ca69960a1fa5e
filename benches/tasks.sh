#!/usr/bin/env bash
# Posts, claims, loses, settles and withdraws 1,000,000 rows of a board of tasks, mostly in no order, and prints the processor time of
# each call. The program is built as every program of the repository is, over the proved crates.
set -eu
top=$(cd "$(dirname "${BASH_SOURCE[0]}")/.." && pwd)
work=$(mktemp -d)
trap 'rm -rf "$work"' EXIT

mkdir -p "$work/crates/task_times/src"
for crate in base_core task_board; do
    mkdir "$work/crates/$crate"
    for part in src specs proofs; do
        if [ -d "$top/crates/$crate/$part" ]; then cp -r "$top/crates/$crate/$part" "$work/crates/$crate/"; fi
    done
done
grep -E '^(base_core|task_board):' "$top/crates.txt" >"$work/crates.txt"
echo 'task_times: task_board anyhow' >>"$work/crates.txt"

cp "$top/benches/tasks/main.txt" "$work/crates/task_times/src/main.rt"
(cd "$work/crates/task_times" && rt run >"$work/times" 2>"$work/log") || { cat "$work/log" >&2; exit 1; }
cat "$work/times"
