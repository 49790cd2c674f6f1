#!/usr/bin/env bash
# How fast batches of Avro events are written and read: 100 events of 200 bytes each, without headers and with two. Prints
# megabytes and events per second. Needs the Rattle kit's `rt`. No part of the gate.
set -eu
cd "$(dirname "$0")/.."
. bench/program.sh
make_program avro_bench "event_core avro_binary" "anyhow"
cat > "$program/src/main.rt" <<'PROGRAM'
#![tactic(auto)]

use anyhow::{Result, bail};
use avro_binary::{read_batch, write_batch};
use event_core::{Batch, Event, Headers};
use std::alloc::Global;
use std::time::{Duration, Instant};

const ROUNDS: u64 = 20_000;

const EVENTS: u64 = 100;

fn batch_of(alloc: Global, headers: bool) -> Result<Batch> {
    let mut batch = Batch::new(alloc);
    for _ in 0..EVENTS {
        let mut kept = Headers::new(alloc);
        if headers && (kept.set("host", "alpha").is_err() || kept.set("timestamp", "1350586020000").is_err()) {
            bail!("no memory");
        }
        let body = vec![in alloc; b'x'; 200]?;
        match Event::new(kept, body) {
            Ok(event) => {
                if batch.push(event).is_err() {
                    bail!("no memory");
                }
            }
            Err(_) => bail!("no event"),
        }
    }
    Ok(batch)
}

fn report(rt: &HostRuntime, what: &str, bytes: u64, took: Duration) -> Result<()> {
    let micros = took.as_micros().max(1);
    let all = u128::from(bytes) * u128::from(ROUNDS);
    let events = u128::from(EVENTS * ROUNDS) * 1_000_000 / micros;
    let megabytes = all / micros;
    println!(rt; "{what}: {bytes} bytes a batch, {megabytes} MB/s, {events} events/s")?;
    Ok(())
}

fn main(rt: HostRuntime) -> Result<()> {
    let alloc = rt.alloc();
    for headers in [false, true] {
        let batch = batch_of(alloc, headers)?;
        let mut bytes = Vec::new(alloc);
        let start = Instant::now(&rt)?;
        for _ in 0..ROUNDS {
            bytes.clear();
            if write_batch(&batch, &mut bytes).is_err() {
                bail!("no memory");
            }
        }
        let took = start.elapsed(&rt)?;
        let name = if headers { "two headers" } else { "no headers" };
        println!(rt; "{name}")?;
        report(&rt, "  written", bytes.len() as u64, took)?;
        let mut read = 0usize;
        let start = Instant::now(&rt)?;
        for _ in 0..ROUNDS {
            match read_batch(alloc, &bytes, 0) {
                Ok((found, _)) => read = read.max(found.len()),
                Err(_) => bail!("not read"),
            }
        }
        let took = start.elapsed(&rt)?;
        report(&rt, "  read", bytes.len() as u64, took)?;
        if read != batch.len() {
            bail!("events are missing");
        }
    }
    Ok(())
}
PROGRAM
run_program
