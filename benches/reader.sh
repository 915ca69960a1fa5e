#!/bin/sh
# Times the reader of sexp_core, in a copy of the crates beside a small program that no gate builds:
# 64 MB of short items in pieces of 65,536 bytes, and one item of 1,000,000 bytes in one piece and in pieces of one
# byte. Prints bytes a second, and how much longer the pieces of one byte take.
set -e
top=$(cd "$(dirname "$0")/.." && pwd)
work=$(mktemp -d)
trap 'rm -rf "$work"' EXIT
mkdir "$work/crates"
for crate in base_core stm_base sexp_theory sexp_core; do
    mkdir "$work/crates/$crate"
    for part in src specs proofs; do
        if [ -d "$top/crates/$crate/$part" ]; then cp -r "$top/crates/$crate/$part" "$work/crates/$crate/"; fi
    done
done
grep -E '^(base_core|stm_base|sexp_theory|sexp_core):' "$top/crates.txt" > "$work/crates.txt"
echo 'reader_bench: sexp_core base_core anyhow' >> "$work/crates.txt"
mkdir -p "$work/crates/reader_bench/src"
cat > "$work/crates/reader_bench/src/main.rt" <<'END'
//! Times the reader of s-expressions.
#![tactic(auto)]

use anyhow::{Result, ensure};
use sexp_core::Reader;
use std::alloc::Global;
use std::time::Instant;

const SHORT: &str = "(Add () \"Parameter A : Prop.\") (q Quit) 12 abc\n";

/// How many items a piece ends.
fn items_in(reader: &mut Reader, piece: &[u8]) -> Result<u64> {
    ensure!(reader.fed() < 1 << 60 && piece.len() < 1 << 60, "too much");
    reader.feed(piece)?;
    let mut items: u64 = 0;
    for _ in 0..=piece.len() {
        if reader.next()?.is_none() {
            break;
        }
        items = items.saturating_add(1);
    }
    Ok(items)
}

fn items_in_pieces(alloc: Global, text: &[u8], size: usize, times: u32) -> Result<u64> {
    let mut reader = Reader::new(alloc)?;
    let mut items: u64 = 0;
    for _ in 0..times {
        for piece in text.chunks(size.max(1)) {
            items = items.saturating_add(items_in(&mut reader, piece)?);
        }
    }
    Ok(items)
}

fn time(rt: &HostRuntime, name: &str, text: &[u8], size: usize, times: u32) -> Result<u64> {
    let start = Instant::now(rt)?;
    let items = items_in_pieces(rt.alloc(), text, size, times)?;
    let spent = start.elapsed(rt)?;
    let seconds = spent.as_secs().saturating_mul(1_000_000);
    let micros = seconds.saturating_add(u64::from(spent.subsec_micros())).max(1);
    let bytes = (text.len() as u64).saturating_mul(u64::from(times));
    let rate = bytes.saturating_mul(1_000_000) / micros;
    println!(rt; "{name}: {items} items, {bytes} bytes, {micros} microseconds, {rate} bytes a second")?;
    Ok(micros)
}

fn main(rt: HostRuntime) -> Result<()> {
    let mut short = Vec::new(rt.alloc());
    for _ in 0..1400 {
        short.extend_from_slice(SHORT.as_bytes())?;
    }
    let mut long = Vec::new(rt.alloc());
    long.push(b'"')?;
    for _ in 0..999_998 {
        long.push(b'a')?;
    }
    long.push(b'"')?;
    time(&rt, "short items", &short, 65_536, 1000)?;
    let whole = time(&rt, "one item in one piece", &long, 1_000_000, 1)?;
    let bytes = time(&rt, "one item in pieces of one byte", &long, 1, 1)?;
    let percent = bytes.saturating_mul(100) / whole.max(1);
    println!(rt; "pieces of one byte take {percent} percent of the time of one piece")?;
    Ok(())
}
END
cd "$work/crates/reader_bench"
rt run
