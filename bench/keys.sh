#!/usr/bin/env bash
# Times 8,192 unions of keys over 4,096 positions and other calls of `Key`, as LLVM builds them. The program is made in a
# folder of its own, proved, run and removed: bench/keys.sh
set -euo pipefail
root=$(cd "$(dirname "$0")/.." && pwd)
work=$(mktemp -d)
trap 'rm -rf "$work"' EXIT
mkdir -p "$work/crates/key_bench/src"
for name in lists req_keys; do
    cp -r "$root/crates/$name" "$work/crates/$name"
    rm -rf "$work/crates/$name/out"
done
printf 'lists:\nreq_keys: lists\nkey_bench: req_keys anyhow\n' > "$work/crates.txt"
cat > "$work/crates/key_bench/src/main.rt" <<'PROGRAM'
//! Times calls of `Key`.
#![tactic(auto)]

use anyhow::Error;
use req_keys::Key;
use std::time::Instant;

fn main(rt: HostRuntime) -> Result<(), Error> {
    let alloc = rt.alloc();
    let lower = Key::range(alloc, 4096, 0, 2048)?;
    let upper = Key::range(alloc, 4096, 1024, 2048)?;
    if lower.n() != upper.n() {
        return Ok(());
    }
    let start = Instant::now(&rt)?;
    let mut members = 0u64;
    for _ in 0..8192 {
        let both = lower.union(&upper)?;
        members ^= both.len() as u64;
    }
    let took = start.elapsed(&rt)?.as_micros();
    println!(rt; "8192 unions with their lengths: {took} us ({members})")?;
    let start = Instant::now(&rt)?;
    let mut less = 0u32;
    for _ in 0..8192u32 {
        if lower < upper && !lower.is_subset(&upper) && !lower.is_disjoint(&upper) {
            less ^= 1;
        }
    }
    let took = start.elapsed(&rt)?.as_micros();
    println!(rt; "8192 comparisons with two tests each: {took} us ({less})")?;
    let start = Instant::now(&rt)?;
    let mut count = 0usize;
    for _ in 0..8192 {
        count ^= lower.positions()?.len();
    }
    let took = start.elapsed(&rt)?.as_micros();
    println!(rt; "8192 lists of 2048 positions: {took} us ({count})")?;
    Ok(())
}
PROGRAM
cd "$work/crates/key_bench"
rt run
