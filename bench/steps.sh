#!/usr/bin/env bash
# How many events of 200 bytes a second a filter and an extractor take, and how many bodies the same patterns take in Python's
# `re`, where it is there. Bodies are lines of a web server's log, of which half have the status 404. Needs the Rattle kit's `rt`.
# No part of the gate.
set -eu
cd "$(dirname "$0")/.."
. bench/program.sh
make_program steps_bench "event_core regex_steps" "anyhow"
cat > "$program/src/main.rt" <<'PROGRAM'
#![tactic(auto)]

use anyhow::{Result, bail};
use event_core::{Event, Headers};
use regex_steps::{Group, RegexKeys, RegexStep};
use std::alloc::Global;
use std::time::Instant;

const ROUNDS: u64 = 200_000;

fn body(alloc: Global, number: u64) -> Result<Vec<u8>> {
    let status = if number % 2 == 0 { 404 } else { 200 };
    let mut line = format!(in alloc; "10.0.0.1 - - [2012-10-18 18:47:05] \"GET /a/{number} HTTP/1.1\" {status} 1234 ")?;
    for _ in 0..200 {
        if line.len() < 200 {
            line.push_str("x")?;
        }
    }
    Ok(line.into_bytes())
}

fn event(alloc: Global, number: u64) -> Result<Event> {
    match Event::new(Headers::new(alloc), body(alloc, number)?) {
        Ok(event) => Ok(event),
        Err(_) => bail!("no event"),
    }
}

fn built(alloc: Global, keys: &RegexKeys) -> Result<RegexStep> {
    match RegexStep::build(alloc, keys) {
        Ok(step) => Ok(step),
        Err(_) => bail!("no step"),
    }
}

fn extractor(alloc: Global) -> Result<RegexStep> {
    let mut groups = Vec::new(alloc);
    groups.push(Group {
        name: String::from_str(alloc, "timestamp")?,
        millis: Some(String::from_str(alloc, "yyyy-MM-dd HH:mm:ss")?),
    })?;
    groups.push(Group {
        name: String::from_str(alloc, "path")?,
        millis: None,
    })?;
    let regex = String::from_str(alloc, "\\[([0-9: -]+)\\] \"GET ([^ ]+) ")?;
    built(alloc, &RegexKeys::Extract { regex, groups })
}

fn run(rt: &HostRuntime, what: &str, mut step: RegexStep) -> Result<()> {
    let alloc = rt.alloc();
    let mut kept: u64 = 0;
    let mut took: u128 = 0;
    for number in 0..ROUNDS {
        let event = event(alloc, number)?;
        let start = Instant::now(rt)?;
        let made = step.run(event);
        took = took.saturating_add(start.elapsed(rt)?.as_nanos());
        if let Ok(Some(_)) = made {
            kept = kept.saturating_add(1);
        }
    }
    let events = u128::from(ROUNDS) * 1_000_000_000 / took.max(1);
    println!(rt; "{what}: {events} events/s, {kept} of {ROUNDS} kept")?;
    Ok(())
}

fn main(rt: HostRuntime) -> Result<()> {
    let alloc = rt.alloc();
    let regex = String::from_str(alloc, "\" 404 ")?;
    let filter = built(alloc, &RegexKeys::Filter { regex, exclude: false })?;
    run(&rt, "filter", filter)?;
    run(&rt, "extractor", extractor(alloc)?)?;
    Ok(())
}
PROGRAM
run_program
if command -v python3 > /dev/null; then
    python3 - <<'PYTHON'
import re, time
from datetime import datetime, timezone

ROUNDS = 200_000

def body(number):
    status = 404 if number % 2 == 0 else 200
    line = f'10.0.0.1 - - [2012-10-18 18:47:05] "GET /a/{number} HTTP/1.1" {status} 1234 '
    return line.ljust(200, 'x')

bodies = [body(number) for number in range(ROUNDS)]
found = re.compile('" 404 ')
start = time.perf_counter()
kept = sum(1 for line in bodies if found.search(line))
took = time.perf_counter() - start
print(f'python re, filter: {ROUNDS / took:.0f} bodies/s, {kept} of {ROUNDS} kept')

groups = re.compile(r'\[([0-9: -]+)\] "GET ([^ ]+) ')
start = time.perf_counter()
for line in bodies:
    match = groups.search(line)
    headers = {}
    if match:
        moment = datetime.strptime(match.group(1), '%Y-%m-%d %H:%M:%S').replace(tzinfo=timezone.utc)
        headers['timestamp'] = str(int(moment.timestamp() * 1000))
        headers['path'] = match.group(2)
took = time.perf_counter() - start
print(f'python re, extractor: {ROUNDS / took:.0f} bodies/s')
PYTHON
fi
