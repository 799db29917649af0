#!/usr/bin/env bash
# Times `formula_of` on the tokens of texts of 16 MiB, as LLVM builds it, and shows the most memory that the program took.
# The program is made in a folder of its own, proved, run and removed: bench/formula_of.sh
set -euo pipefail
root=$(cd "$(dirname "$0")/.." && pwd)
work=$(mktemp -d)
trap 'rm -rf "$work"' EXIT
mkdir -p "$work/crates/formula_bench/src"
for name in lists uvl_lex feature_tree; do
  cp -r "$root/crates/$name" "$work/crates/$name"
  rm -rf "$work/crates/$name/out"
done
printf 'lists:\nuvl_lex: lists unicode_ident thiserror\nfeature_tree: lists sqlite_items uvl_lex thiserror\nformula_bench: feature_tree uvl_lex anyhow\n' > "$work/crates.txt"
cat > "$work/crates/formula_bench/src/main.rt" <<'PROGRAM'
//! Times the reader of formulas on generated texts.
#![tactic(auto)]

use anyhow::Error;
use feature_tree::formula_of;
use std::time::Instant;
use uvl_lex::{Token, logical_lines};

const CHAIN: &[u8] = b"a&";

fn time(rt: &HostRuntime, name: &str, tokens: &[Token]) -> Result<(), Error> {
    if tokens.len() > 16_777_216 {
        return Ok(());
    }
    let start = Instant::now(rt)?;
    let answer = formula_of(rt.alloc(), tokens);
    let took = start.elapsed(rt)?.as_micros();
    let word = match &answer {
        Ok(_) => "a formula",
        Err(_) => "a refusal",
    };
    println!(rt; "{name}: {} tokens, {word}, {took} us", tokens.len())?;
    Ok(())
}

fn main(rt: HostRuntime) -> Result<(), Error> {
    let mut text = Vec::new(rt.alloc());
    for _ in 0..8_388_000u32 {
        text.extend_from_slice(CHAIN)?;
    }
    text.push(b'a')?;
    if text.len() > 16_777_216 {
        return Ok(());
    }
    if let Ok(lines) = logical_lines(rt.alloc(), &text) {
        for line in lines.as_slice() {
            time(&rt, "names", line.tokens.as_slice())?;
        }
    }
    Ok(())
}
PROGRAM
cd "$work/crates/formula_bench"
rt run
python3 -c 'import resource, subprocess
subprocess.run(["out/formula_bench"], check=True)
print("most memory:", resource.getrusage(resource.RUSAGE_CHILDREN).ru_maxrss // 1024, "MB")'
