#!/usr/bin/env bash
# How long reading a properties text takes as the text grows from 64 KiB to 1 MiB: one long value, many keys, one line of
# continuations, and blank lines. Needs the Rattle kit's `rt`. No part of the gate.
set -eu
cd "$(dirname "$0")/.."
. bench/program.sh
make_program prop_bench "prop_text" "anyhow"
cat > "$program/src/main.rt" <<'PROGRAM'
#![tactic(auto)]

use anyhow::Result;
use prop_text::read_properties;
use std::alloc::Global;
use std::time::Instant;

fn text(alloc: Global, kind: usize, size: usize) -> Result<String> {
    let mut text = String::new(alloc);
    if kind == 0 || kind == 2 {
        text.push_str("key = ")?;
    }
    for number in 0..size {
        if size <= text.len() {
            break;
        }
        match kind {
            0 => text.push_str("value ")?,
            1 => write!(text, "k{number}=1\n")?,
            2 => text.push_str("a\\\n  ")?,
            _ => text.push_str(" \n")?,
        }
    }
    Ok(text)
}

fn main(rt: HostRuntime) -> Result<()> {
    let alloc = rt.alloc();
    for (kind, name) in [(0, "one value"), (1, "many keys"), (2, "continuations"), (3, "blank lines")] {
        for kib in [64usize, 256, 1024] {
            let text = text(alloc, kind, kib * 1024)?;
            let start = Instant::now(&rt)?;
            let keys = match read_properties(alloc, text.as_bytes()) {
                Ok(found) => found.len(),
                Err(_) => 0,
            };
            let took = start.elapsed(&rt)?;
            let micros = took.as_micros();
            println!(rt; "{name}: {kib} KiB, {keys} keys, {micros} microseconds")?;
        }
    }
    Ok(())
}
PROGRAM
run_program
