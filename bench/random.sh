#!/usr/bin/env bash
# 100,000 random calls of a file channel on the disk in memory, each beside the same call of the plain channel, and 400
# rounds of random calls with an opening or a reopening after them, beside the plain recovery of the log files. Needs the
# Rattle kit's `rt`. No part of the gate.
set -eu
cd "$(dirname "$0")/.."
. bench/program.sh
make_program random_run "flume_host event_core host_memory record_form open_table event_ring channel_face channel_places channel_log checkpoint checkpoint_reading channel_replay checkpoint_recovery ring_replay checkpoint_replay checkpoint_opening txn_core channel_writing file_channel" "anyhow"
mkdir -p "$program/proofs/open" "$program/proofs/restart"
cat > "$program/proofs/open/Invariants.antt" <<'TEXT'
use Rattle.random_run.proofs.open.Given as goal

abbrev pub ghosts-open_by : goal.ghosts-open_by
ghosts-open_by a = record { name = a.blank.name; parts = a.blank.parts }
TEXT
cat > "$program/proofs/restart/Invariants.antt" <<'TEXT'
use Rattle.random_run.proofs.restart.Given as goal

abbrev pub ghosts-reopen_by : goal.ghosts-reopen_by
ghosts-reopen_by a = record { name = a.blank.name; parts = a.blank.parts }
TEXT
cat > "$program/src/calls.rt" <<'TEXT'
// Calls of a channel, and what each says.
use anyhow::{Result, bail};
use channel_face::{Channel, CommitRefused, PutTxn, StageCause, StageRefused, TakeTxn, Ticket};
use event_core::{Event, Headers};
use std::alloc::Global;

/// A call, with the number of its transaction.
#[derive(Clone, Copy)]
pub enum Step {
    BeginPut,
    BeginTake,
    /// An event of so many bytes, which begins with this number.
    Put(u64, u64, usize),
    Take(u64),
    StagePut(u64),
    StageTake(u64),
    CommitPut(u64),
    CommitTake(u64),
    RollbackPut(u64),
    RollbackTake(u64),
    Flush,
    /// What the ticket of the last stage or commit is.
    Asked,
    Size,
}

/// What a call answered.
#[derive(PartialEq, Eq, Drop)]
pub struct Said {
    pub text: String,
    /// The number that an event begins with.
    pub event: Option<u64>,
}

/// What a call answered, the ticket that it gave, and whether a frame was settled to make room.
#[derive(Drop)]
pub struct Answer {
    pub said: Said,
    pub ticket: Option<Ticket>,
    /// The number of a transaction that began.
    pub begun: Option<u64>,
    pub spilled: bool,
}

fn plain(text: String) -> Answer {
    Answer {
        said: Said { text, event: None },
        ticket: None,
        begun: None,
        spilled: false,
    }
}

pub fn event_of(alloc: Global, number: u64, size: usize) -> Result<Event> {
    let mut body = Vec::new(alloc);
    body.extend_from_slice(&number.to_be_bytes())?;
    let rest = vec![in alloc; b'x'; size.saturating_sub(8)]?;
    body.extend_from_slice(&rest)?;
    match Event::new(Headers::new(alloc), body) {
        Ok(event) => Ok(event),
        Err(_) => bail!("no event"),
    }
}

pub fn number_of(event: &Event) -> u64 {
    let mut number: u64 = 0;
    for byte in event.body().iter().take(8) {
        number = number.wrapping_mul(256).wrapping_add(u64::from(*byte));
    }
    number
}

fn begun(alloc: Global, number: u64) -> Result<Answer> {
    let mut answer = plain(format!(in alloc; "begun {number}")?);
    answer.begun = Some(number);
    Ok(answer)
}

fn begin<C: Channel>(alloc: Global, channel: &mut C, puts: bool) -> Result<Answer> {
    if puts {
        return match channel.begin_put() {
            Ok(txn) => begun(alloc, txn.into_numbers().1),
            Err(refused) => Ok(plain(format!(in alloc; "{refused:?}")?)),
        };
    }
    match channel.begin_take() {
        Ok(txn) => begun(alloc, txn.into_numbers().1),
        Err(refused) => Ok(plain(format!(in alloc; "{refused:?}")?)),
    }
}

fn put<C: Channel>(
    alloc: Global,
    channel: &mut C,
    life: u64,
    number: u64,
    event: &Event,
) -> Result<Answer> {
    let mut txn = PutTxn::new(life, number);
    let reply = channel.put(&mut txn, event);
    let _numbers = txn.into_numbers();
    match reply {
        Ok(put) => {
            let mut answer = plain(format!(in alloc; "put")?);
            answer.spilled = put.spilled;
            Ok(answer)
        }
        Err(refused) => Ok(plain(format!(in alloc; "{refused:?}")?)),
    }
}

fn take<C: Channel>(alloc: Global, channel: &mut C, life: u64, number: u64) -> Result<Answer> {
    let mut txn = TakeTxn::new(life, number);
    let reply = channel.take(&mut txn);
    let _numbers = txn.into_numbers();
    match reply {
        Ok(taken) => {
            let mut answer = plain(format!(in alloc; "taken")?);
            answer.spilled = taken.spilled;
            answer.said.event = match &taken.event {
                Some(event) => Some(number_of(event)),
                None => None,
            };
            Ok(answer)
        }
        Err(refused) => Ok(plain(format!(in alloc; "{refused:?}")?)),
    }
}

fn ticketed(alloc: Global, ticket: Ticket) -> Result<Answer> {
    let mut answer = plain(format!(in alloc; "first {} of {}", ticket.first, ticket.count)?);
    answer.ticket = Some(ticket);
    Ok(answer)
}

fn refused(alloc: Global, cause: StageCause) -> Result<Answer> {
    Ok(plain(format!(in alloc; "{cause:?}")?))
}

fn in_doubt(alloc: Global) -> Result<Answer> {
    Ok(plain(format!(in alloc; "in doubt")?))
}

fn staged<T>(reply: Result<Ticket, StageRefused<T>>) -> Result<Ticket, CommitRefused<T>> {
    match reply {
        Ok(ticket) => Ok(ticket),
        Err(refused) => Err(CommitRefused::Stage(refused)),
    }
}

// What a stage or a commit said, and its token where that came back.
fn ended<T>(
    alloc: Global,
    reply: Result<Ticket, CommitRefused<T>>,
) -> (Result<Answer>, Option<T>) {
    match reply {
        Ok(ticket) => (ticketed(alloc, ticket), None),
        Err(CommitRefused::Stage(StageRefused { txn, cause })) => {
            (refused(alloc, cause), Some(txn))
        }
        Err(CommitRefused::InDoubt) => (in_doubt(alloc), None),
    }
}

fn puts_ended(alloc: Global, reply: Result<Ticket, CommitRefused<PutTxn>>) -> Result<Answer> {
    let (answer, back) = ended(alloc, reply);
    if let Some(txn) = back {
        let _numbers = txn.into_numbers();
    }
    answer
}

fn takes_ended(alloc: Global, reply: Result<Ticket, CommitRefused<TakeTxn>>) -> Result<Answer> {
    let (answer, back) = ended(alloc, reply);
    if let Some(txn) = back {
        let _numbers = txn.into_numbers();
    }
    answer
}

/// Makes a call, with tokens of this life.
pub fn made<C: Channel>(
    alloc: Global,
    channel: &mut C,
    life: u64,
    ticket: &Ticket,
    step: Step,
) -> Result<Answer> {
    match step {
        Step::BeginPut => begin(alloc, channel, true),
        Step::BeginTake => begin(alloc, channel, false),
        Step::Put(number, event, size) => {
            let event = event_of(alloc, event, size)?;
            put(alloc, channel, life, number, &event)
        }
        Step::Take(number) => take(alloc, channel, life, number),
        Step::StagePut(number) => {
            puts_ended(alloc, staged(channel.stage_put(PutTxn::new(life, number))))
        }
        Step::StageTake(number) => {
            takes_ended(alloc, staged(channel.stage_take(TakeTxn::new(life, number))))
        }
        Step::CommitPut(number) => {
            puts_ended(alloc, channel.commit_put(PutTxn::new(life, number)))
        }
        Step::CommitTake(number) => {
            takes_ended(alloc, channel.commit_take(TakeTxn::new(life, number)))
        }
        Step::RollbackPut(number) => {
            let ended = channel.rollback_put(PutTxn::new(life, number));
            Ok(plain(format!(in alloc; "rolled back: {ended}")?))
        }
        Step::RollbackTake(number) => {
            let ended = channel.rollback_take(TakeTxn::new(life, number));
            Ok(plain(format!(in alloc; "rolled back: {ended}")?))
        }
        Step::Flush => Ok(plain(match channel.flush() {
            Ok(()) => format!(in alloc; "flushed")?,
            Err(refused) => format!(in alloc; "{refused:?}")?,
        })),
        Step::Asked => {
            let settled = channel.settled(ticket);
            Ok(plain(format!(in alloc; "{settled:?}")?))
        }
        Step::Size => {
            let size = channel.size();
            Ok(plain(format!(in alloc; "{size} events")?))
        }
    }
}
TEXT
cat > "$program/src/dice.rt" <<'TEXT'
// Random calls.
use crate::calls::Step;
use anyhow::Result;
use std::alloc::Global;

/// Numbers by a linear congruence, and the transactions that are open.
#[derive(Drop)]
pub struct Dice {
    state: u64,
    // each with whether it is of puts
    open: Vec<(u64, bool)>,
    next_event: u64,
    // one event in so many is large
    large: u64,
}

impl Dice {
    /// Of every second seed one event in ten is large, and otherwise one in 200.
    pub fn new(alloc: Global, seed: u64) -> Dice {
        Dice {
            large: if seed % 2 == 0 { 10 } else { 200 },
            state: seed,
            open: Vec::new(alloc),
            next_event: 0,
        }
    }

    /// A number below this one.
    pub fn roll(&mut self, sides: u64) -> u64 {
        self.state = self
            .state
            .wrapping_mul(6_364_136_223_846_793_005)
            .wrapping_add(1_442_695_040_888_963_407);
        (self.state >> 33) % sides.max(1)
    }

    /// Forgets the open transactions.
    pub fn forget(&mut self) {
        self.open.clear();
    }

    /// Notes a transaction that began.
    pub fn note(&mut self, number: u64, puts: bool) -> Result<()> {
        self.open.push((number, puts))?;
        Ok(())
    }

    // An open transaction, which is removed where it ends; sometimes one that isn't open.
    fn pick(&mut self, ends: bool) -> (u64, bool) {
        let count = self.open.len() as u64;
        if count == 0 || self.roll(200) == 0 {
            return (self.roll(1_000), self.roll(2) == 0);
        }
        let place = self.roll(count) as usize;
        if ends && place < self.open.len() {
            return self.open.swap_remove(place);
        }
        match self.open.get(place) {
            Some(open) => *open,
            None => (0, true),
        }
    }

    fn put(&mut self, number: u64) -> Step {
        self.next_event = self.next_event.saturating_add(1);
        let size = if self.roll(self.large) == 0 {
            700_000
        } else if self.roll(500) == 0 {
            1_048_569
        } else {
            8
        };
        Step::Put(number, self.next_event, size)
    }

    fn end(&mut self) -> Step {
        let (number, puts) = self.pick(true);
        match (self.roll(4), puts) {
            (0, true) => Step::StagePut(number),
            (0, false) => Step::StageTake(number),
            (1, true) => Step::RollbackPut(number),
            (1, false) => Step::RollbackTake(number),
            (_, true) => Step::CommitPut(number),
            (_, false) => Step::CommitTake(number),
        }
    }

    /// The next call.
    pub fn step(&mut self) -> Step {
        match self.roll(20) {
            0..=1 => Step::BeginPut,
            2..=3 => Step::BeginTake,
            4..=13 => {
                let (number, puts) = self.pick(false);
                if puts {
                    self.put(number)
                } else {
                    Step::Take(number)
                }
            }
            14..=16 => self.end(),
            17 => Step::Flush,
            18 => Step::Asked,
            _ => Step::Size,
        }
    }
}
TEXT
cat > "$program/src/main.rt" <<'TEXT'
// Random calls of a channel on the disk in memory, beside the plain channel, and beside the plain recovery of its log.
#![tactic(auto)]

ghost use Rattle.std.specs.Prelude.{◌≡◌, ◌<◌};

mod calls;
mod dice;

use crate::calls::{Step, made, number_of};
use crate::dice::Dice;
use anyhow::{Result, bail};
use channel_face::{Channel, Kind, Limits, Ticket};
use channel_replay::{WholeFile, recover};
use file_channel::{FileChannel, OpenRefused, open_channel};
use flume_host::{FileName, Steps};
use host_memory::MemDisk;
use std::alloc::Global;
use std::marker::Brand;
use std::sync::ledger::{Blank, Ledger};
use txn_core::Machine;

const SEEDS: u64 = 10;

// The calls of a run with few large events, and of each of two runs with many.
const LONG: u64 = 9_000;

const SHORT: u64 = 500;

const ROUNDS: u64 = 40;

const LIMITS: Limits = Limits {
    capacity: 500,
    txn_capacity: 20,
    max_file: 1_000_000_000,
};

// All events of a channel are taken in one transaction.
const WIDE: Limits = Limits {
    capacity: 500,
    txn_capacity: 1_000,
    max_file: 1_000_000_000,
};

fn open_by<L: Ledger>(
    alloc: Global,
    blank: Blank,
    disk: MemDisk,
    limits: Limits,
) -> Result<FileChannel<MemDisk>>
    requires name { blank.name ≡ L.name }
    requires parts { blank.parts ≡ L.parts }
    requires some { 0 < L.parts }
{
    match open_channel(alloc, disk, limits, &mut Steps::<L>::new(blank)) {
        Ok(channel) => Ok(channel),
        Err(OpenRefused { disk: _, cause }) => bail!("not opened: {cause:?}"),
    }
}

fn open(alloc: Global, disk: MemDisk, limits: Limits) -> Result<FileChannel<MemDisk>> {
    open_by::<Brand>(alloc, Blank::new(1), disk, limits)
}

fn reopen_by<L: Ledger>(blank: Blank, channel: &mut FileChannel<MemDisk>) -> Result<()>
    requires name { blank.name ≡ L.name }
    requires parts { blank.parts ≡ L.parts }
    requires some { 0 < L.parts }
{
    match channel.reopen(&mut Steps::<L>::new(blank)) {
        Ok(()) => Ok(()),
        Err(cause) => bail!("not reopened: {cause:?}"),
    }
}

fn no_ticket() -> Ticket {
    Ticket {
        life: 0,
        frame: 0,
        first: 0,
        count: 0,
    }
}

// Makes the same calls of both, and answers how often a frame was settled to make room.
fn compare(alloc: Global, seed: u64, calls: u64) -> Result<u64> {
    let mut file = open(alloc, MemDisk::new(alloc), LIMITS)?;
    let Ok(mut machine) = Machine::new(alloc, LIMITS, Kind::File) else {
        bail!("no memory");
    };
    let mut dice = Dice::new(alloc, seed);
    let mut tickets = (no_ticket(), no_ticket());
    let mut spills: u64 = 0;
    for call in 0..calls {
        let step = dice.step();
        let answer = made(alloc, &mut file, 1, &tickets.0, step)?;
        if answer.spilled {
            spills = spills.saturating_add(1);
            let _flushed = machine.flush();
        }
        let plain = made(alloc, &mut machine, 1, &tickets.1, step)?;
        if answer.said != plain.said {
            bail!(
                "call {call}: {} on the disk, {} in the plain channel",
                answer.said.text,
                plain.said.text
            );
        }
        if let Some(ticket) = answer.ticket {
            tickets.0 = ticket;
        }
        if let Some(ticket) = plain.ticket {
            tickets.1 = ticket;
        }
        if let Some(number) = answer.begun {
            dice.note(number, matches!(step, Step::BeginPut))?;
        }
    }
    Ok(spills)
}

// The events of a channel, by the numbers that they begin with, and left there.
fn events_of(alloc: Global, channel: &mut FileChannel<MemDisk>) -> Result<Vec<u64>> {
    let mut numbers = Vec::new(alloc);
    let Ok(mut txn) = channel.begin_take() else {
        bail!("not begun");
    };
    for _ in 0..WIDE.txn_capacity {
        match channel.take(&mut txn) {
            Ok(taken) => match &taken.event {
                Some(event) => {
                    if numbers.push(number_of(event)).is_err() {
                        break;
                    }
                }
                None => break,
            },
            Err(_) => break,
        }
    }
    let _ended = channel.rollback_take(txn);
    Ok(numbers)
}

// What the plain recovery says of the files of a disk.
fn recovered(alloc: Global, disk: &MemDisk) -> Result<Vec<u64>> {
    let mut files = Vec::new(alloc);
    for number in 0..2_000 {
        if let Some(bytes) = disk.file(FileName::Log(number)) {
            files.push(WholeFile {
                number,
                bytes: bytes.to_vec(alloc)?,
            })?;
        }
    }
    let mut numbers = Vec::new(alloc);
    match recover(alloc, &files) {
        Ok(replayed) => {
            for item in &replayed.items {
                numbers.push(number_of(&item.1))?;
            }
            Ok(numbers)
        }
        Err(_) => bail!("not recovered"),
    }
}

// Some random calls.
fn stir(
    alloc: Global,
    channel: &mut FileChannel<MemDisk>,
    dice: &mut Dice,
    life: u64,
) -> Result<()> {
    dice.forget();
    let calls = dice.roll(500);
    for _ in 0..calls {
        let step = dice.step();
        let answer = made(alloc, channel, life, &no_ticket(), step)?;
        if let Some(number) = answer.begun {
            dice.note(number, matches!(step, Step::BeginPut))?;
        }
    }
    Ok(())
}

// Opens and reopens a folder at random moments, and answers how many events were left in all.
fn restart(alloc: Global, seed: u64) -> Result<u64> {
    let mut disk = MemDisk::new(alloc);
    let mut dice = Dice::new(alloc, seed.wrapping_mul(2).wrapping_add(1));
    let mut left: u64 = 0;
    for round in 0..ROUNDS {
        let mut channel = open(alloc, disk, WIDE)?;
        stir(alloc, &mut channel, &mut dice, 1)?;
        if dice.roll(2) == 0 {
            reopen_by::<Brand>(Blank::new(1), &mut channel)?;
            let kept = events_of(alloc, &mut channel)?;
            disk = channel.close();
            if recovered(alloc, &disk)? != kept {
                bail!("round {round}: a reopened channel has other events than its log");
            }
        } else {
            disk = channel.close();
        }
        let plain = recovered(alloc, &disk)?;
        let mut channel = open(alloc, disk, WIDE)?;
        if events_of(alloc, &mut channel)? != plain {
            bail!("round {round}: an opened channel has other events than its log");
        }
        left = left.saturating_add(plain.len() as u64);
        disk = channel.close();
    }
    Ok(left)
}

fn main(rt: HostRuntime) -> Result<()> {
    let alloc = rt.alloc();
    let mut spills: u64 = 0;
    let mut left: u64 = 0;
    let mut calls: u64 = 0;
    for seed in 1..=SEEDS {
        let odd = seed.saturating_mul(2).saturating_add(1);
        let even = seed.saturating_mul(4);
        spills = spills
            .saturating_add(compare(alloc, odd, LONG)?)
            .saturating_add(compare(alloc, even, SHORT)?)
            .saturating_add(compare(alloc, even.saturating_add(2), SHORT)?);
        calls = calls.saturating_add(LONG + 2 * SHORT);
        left = left.saturating_add(restart(alloc, seed)?);
    }
    println!(rt;
        "{} calls answered as the plain channel answers them, {spills} of them settled a frame to make room",
        calls
    )?;
    println!(rt;
        "{} openings left the {left} events that the plain recovery finds",
        SEEDS.saturating_mul(ROUNDS)
    )?;
    Ok(())
}
TEXT
run_program
