#!/usr/bin/env bash
# Times `logical_lines` and `read_model` on one model text of 16 MiB with 65,535 features and as many constraints, as LLVM
# builds them, and says how much memory the process had at most after each. The program is made in a folder of its own,
# proved, run and removed: bench/read_model.sh
set -euo pipefail
root=$(cd "$(dirname "$0")/.." && pwd)
work=$(mktemp -d)
trap 'rm -rf "$work"' EXIT
mkdir -p "$work/crates/read_bench/src"
for name in lists uvl_lex feature_tree name_table uvl_reader; do
    cp -r "$root/crates/$name" "$work/crates/$name"
    rm -rf "$work/crates/$name/out"
done
{
    grep -E '^(lists|uvl_lex|feature_tree|name_table|uvl_reader):' "$root/crates.txt"
    echo 'read_bench: anyhow feature_tree lists uvl_lex uvl_reader'
} > "$work/crates.txt"
cat > "$work/crates/read_bench/src/main.rt" <<'PROGRAM'
//! Times the reader of models on a generated text.
#![tactic(auto)]

use anyhow::Error;
use std::fs;
use std::time::Instant;
use uvl_lex::logical_lines;
use uvl_reader::read_model;

const NOTE: &[u8] =
    b" {abstract true, price 12.5, note 'What a maintainer of the product line has to know of it: who asked for it, since when, and by which team it is kept, tested and handed on to others.'}\n";

/// A feature line: the root, one of 217 areas, or one of the 301 parts of an area.
fn feature(rt: &HostRuntime, text: &mut Vec<u8>, tabs: &[u8], number: u32) -> Result<(), Error> {
    text.extend_from_slice(tabs)?;
    text.extend_from_slice(format!(in rt.alloc(); "Feature_{number}")?.as_bytes())?;
    text.extend_from_slice(NOTE)?;
    Ok(())
}

/// The area with this place among the areas, and its parts, which have the numbers behind it.
fn area(rt: &HostRuntime, text: &mut Vec<u8>, place: u32) -> Result<(), Error> {
    let number = place % 217 * 302 + 1;
    feature(rt, text, b"\t\t\t", number)?;
    text.extend_from_slice(b"\t\t\t\tor\n")?;
    for part in 1..302u32 {
        feature(rt, text, b"\t\t\t\t\t", number + part)?;
    }
    Ok(())
}

/// A constraint on three of the features.
fn constraint(rt: &HostRuntime, text: &mut Vec<u8>, number: u32) -> Result<(), Error> {
    let number = number % 65_535;
    let other = number * 7 % 65_535;
    let third = number * 31 % 65_535;
    let line = format!(in rt.alloc();
        "\tFeature_{number} => Feature_{other} | !Feature_{third}\n"
    )?;
    text.extend_from_slice(line.as_bytes())?;
    Ok(())
}

fn model(rt: &HostRuntime) -> Result<Vec<u8>, Error> {
    let mut text = Vec::new(rt.alloc());
    text.extend_from_slice(b"features\n")?;
    feature(rt, &mut text, b"\t", 0)?;
    text.extend_from_slice(b"\t\tmandatory\n")?;
    for place in 0..217u32 {
        area(rt, &mut text, place)?;
    }
    text.extend_from_slice(b"constraints\n")?;
    for number in 0..65_535u32 {
        constraint(rt, &mut text, number)?;
    }
    Ok(text)
}

/// The most memory that the process had so far, as the system says it.
fn most(rt: &HostRuntime, after: &str) -> Result<(), Error> {
    let status = fs::read_to_string(rt, "/proc/self/status")?;
    for line in status.lines() {
        if let Some(most) = line.strip_prefix("VmHWM:") {
            println!(rt; "memory up to {after}: at most {}", most.trim())?;
        }
    }
    Ok(())
}

fn lines(rt: &HostRuntime, text: &[u8]) -> Result<(), Error> {
    if text.len() > 16_777_216 {
        return Ok(());
    }
    let start = Instant::now(rt)?;
    let lines = logical_lines(rt.alloc(), text);
    let took = start.elapsed(rt)?.as_micros();
    match &lines {
        Ok(lines) => println!(rt; "logical_lines: {} lines, {took} us", lines.len())?,
        Err(error) => println!(rt; "logical_lines: {error}")?,
    }
    Ok(())
}

fn read(rt: &HostRuntime, text: &[u8]) -> Result<(), Error> {
    if text.len() > 16_777_216 {
        return Ok(());
    }
    let start = Instant::now(rt)?;
    let model = read_model(rt.alloc(), text);
    let took = start.elapsed(rt)?.as_micros();
    match &model {
        Ok(model) => {
            let features = model.features.len();
            let constraints = model.constraints.len();
            println!(rt; "read_model: {features} features, {constraints} constraints, {took} us")?
        }
        Err(error) => println!(rt; "read_model: {error}")?,
    }
    Ok(())
}

fn main(rt: HostRuntime) -> Result<(), Error> {
    let text = model(&rt)?;
    println!(rt; "{} bytes", text.len())?;
    most(&rt, "the text")?;
    lines(&rt, &text)?;
    most(&rt, "logical_lines")?;
    read(&rt, &text)?;
    most(&rt, "read_model")?;
    Ok(())
}
PROGRAM
cd "$work/crates/read_bench"
rt run
