#!/usr/bin/env bash
# How long an event takes through a channel in memory, by how many events stand in it and how many a transaction has: a put, a
# take, and their part of the two commits, in nanoseconds, and as a ratio to that of the first row. Needs the Rattle kit's
# `rt`. No part of the gate.
set -eu
cd "$(dirname "$0")/.."
. bench/program.sh
make_program takes_bench "flume_host event_core channel_face txn_core memory_channel" "anyhow"
cat > "$program/src/main.rt" <<'PROGRAM'
#![tactic(auto)]

use anyhow::{Result, bail};
use channel_face::{Channel, CommitRefused, Limits, StageRefused, Ticket};
use event_core::{Event, Headers};
use memory_channel::MemoryChannel;
use std::alloc::Global;
use std::time::Instant;

const EVENTS: u32 = 20_000;

const LIMITS: Limits = Limits {
    capacity: 1_000_000,
    txn_capacity: 1_000,
    max_file: 1_000_000_000,
};

// Whether it was committed, and its token where that came back.
fn ended<T>(reply: Result<Ticket, CommitRefused<T>>) -> (bool, Option<T>) {
    match reply {
        Ok(_) => (true, None),
        Err(CommitRefused::Stage(StageRefused { txn, cause: _ })) => (false, Some(txn)),
        Err(CommitRefused::InDoubt) => (false, None),
    }
}

// One transaction that puts this event so often.
fn put(channel: &mut MemoryChannel, event: &Event, count: u32) -> Result<()> {
    let Ok(mut txn) = channel.begin_put() else {
        bail!("not begun");
    };
    let mut done = true;
    for _ in 0..count {
        done = channel.put(&mut txn, event).is_ok() && done;
    }
    let (committed, back) = ended(channel.commit_put(txn));
    if let Some(txn) = back {
        let _numbers = txn.into_numbers();
    }
    if !done || !committed {
        bail!("not put");
    }
    Ok(())
}

// One transaction that takes so many events.
fn take(channel: &mut MemoryChannel, count: u32) -> Result<()> {
    let Ok(mut txn) = channel.begin_take() else {
        bail!("not begun");
    };
    let mut done = true;
    for _ in 0..count {
        done = match channel.take(&mut txn) {
            Ok(taken) => taken.event.is_some() && done,
            Err(_) => false,
        };
    }
    let (committed, back) = ended(channel.commit_take(txn));
    if let Some(txn) = back {
        let _numbers = txn.into_numbers();
    }
    if !done || !committed {
        bail!("not taken");
    }
    Ok(())
}

// Nanoseconds an event, of transactions of so many.
fn measure(
    rt: &HostRuntime,
    channel: &mut MemoryChannel,
    event: &Event,
    count: u32,
) -> Result<u128> {
    let start = Instant::now(rt)?;
    for _ in 0..EVENTS / count.max(1) {
        put(channel, event, count)?;
        take(channel, count)?;
    }
    Ok(start.elapsed(rt)?.as_nanos() / u128::from(EVENTS))
}

fn main(rt: HostRuntime) -> Result<()> {
    let alloc = rt.alloc();
    let Ok(event) = Event::new(Headers::new(alloc), vec![in alloc; b'x'; 200]?) else {
        bail!("no event");
    };
    let mut first: u128 = 0;
    for rounds in [1, 10, 100] {
        let Ok(mut channel) = MemoryChannel::new(alloc, LIMITS) else {
            bail!("no memory");
        };
        for _ in 0..rounds {
            put(&mut channel, &event, 1_000)?;
        }
        let left = channel.size();
        for count in [1, 100, 1_000] {
            let nanos = measure(&rt, &mut channel, &event, count)?;
            if first == 0 {
                first = nanos.max(1);
            }
            let tenths = nanos.saturating_mul(10) / first.max(1);
            let (whole, part) = (tenths / 10, tenths % 10);
            println!(rt; "{left} events, {count} a transaction: {nanos} ns an event, {whole}.{part} times the first row")?;
        }
    }
    Ok(())
}
PROGRAM
run_program
