#!/usr/bin/env bash
# Times `logical_lines` on texts of 16 MiB, as LLVM builds it. The program
# is made in a folder of its own, proved, run and removed: bench/logical_lines.sh
set -euo pipefail
root=$(cd "$(dirname "$0")/.." && pwd)
work=$(mktemp -d)
trap 'rm -rf "$work"' EXIT
mkdir -p "$work/crates/lex_bench/src"
for name in lists uvl_lex; do
  cp -r "$root/crates/$name" "$work/crates/$name"
  rm -rf "$work/crates/$name/out"
done
printf 'lists:\nuvl_lex: lists unicode_ident thiserror\nlex_bench: uvl_lex anyhow\n' > "$work/crates.txt"
cat > "$work/crates/lex_bench/src/main.rt" <<'PROGRAM'
//! Times the lexer on generated texts.
#![tactic(auto)]

use anyhow::Error;
use std::time::Instant;
use uvl_lex::logical_lines;

const MODEL: &[u8] = b"\t\tmandatory\n\t\t\tScreen {abstract true, note 'A.B. // no comment', price 12.5}\n\t\t\t\talternative // one of these\n\t\t\t\t\tBasic\n\t\t\t\t\t\"Full colour\"\n\t(Camera & !Basic) => \xc3\x9cber_1 <=> Screen\n";
const NAMES: &[u8] = b"a\n";
const MARKS: &[u8] = b"<=!=..&|";
const BLANKS: &[u8] = b"        \t /* comment */ // more\n";

fn time(rt: &HostRuntime, name: &str, piece: &[u8]) -> Result<(), Error> {
    let mut text = Vec::new(rt.alloc());
    for _ in 0..16_777_216u32 {
        if text.len() > 16_776_000 {
            break;
        }
        text.extend_from_slice(piece)?;
    }
    if text.len() > 16_777_216 {
        return Ok(());
    }
    let start = Instant::now(rt)?;
    let lines = logical_lines(rt.alloc(), &text);
    let took = start.elapsed(rt)?.as_micros();
    let count = match &lines {
        Ok(lines) => lines.len(),
        Err(_) => 0,
    };
    println!(rt; "{name}: {} bytes, {count} lines, {took} us", text.len())?;
    Ok(())
}

fn main(rt: HostRuntime) -> Result<(), Error> {
    time(&rt, "model", MODEL)?;
    time(&rt, "names", NAMES)?;
    time(&rt, "marks", MARKS)?;
    time(&rt, "blanks", BLANKS)?;
    println!(rt; "a token has {} bytes, a line {}", size_of::<uvl_lex::Token>(), size_of::<uvl_lex::Line>())?;
    Ok(())
}
PROGRAM
cd "$work/crates/lex_bench"
rt run
