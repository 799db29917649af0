#!/usr/bin/env bash
# Times `generate`, as LLVM builds it. The program is made in a folder of its own, proved, run and removed:
# bench/generate.sh
set -euo pipefail
root=$(cd "$(dirname "$0")/.." && pwd)
work=$(mktemp -d)
trap 'rm -rf "$work"' EXIT
mkdir -p "$work/crates/gen_bench/src"
for name in lists diag_base uvl_lex feature_tree model_gen; do
    cp -r "$root/crates/$name" "$work/crates/$name"
    rm -rf "$work/crates/$name/out"
done
{
    grep -E '^(lists|diag_base|uvl_lex|feature_tree|model_gen):' "$root/crates.txt"
    echo 'gen_bench: anyhow model_gen'
} > "$work/crates.txt"
cat > "$work/crates/gen_bench/src/main.rt" <<'PROGRAM'
//! Times the generator.
#![tactic(auto)]

use anyhow::Error;
use model_gen::generate;
use std::time::Instant;

fn main(rt: HostRuntime) -> Result<(), Error> {
    for size in [400, 2_000, 10_000, 60_000] {
        if size < 1 || size > 60_000 {
            return Ok(());
        }
        let start = Instant::now(&rt)?;
        let (model, config) = generate(rt.alloc(), 1, size)?;
        let took = start.elapsed(&rt)?.as_micros();
        println!(rt; "{size}: {} and {} bytes, {took} us", model.len(), config.len())?;
    }
    Ok(())
}
PROGRAM
cd "$work/crates/gen_bench"
rt run
