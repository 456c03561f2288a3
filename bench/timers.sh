#!/usr/bin/env bash
# Times many timers: starts 2, 100, 1,000 and 10,000 repeating timers, starts one of them again 100,000
# times, due after all others, takes 100,000 firings in order, and prints the time that a start, a restart
# and a firing take. Builds the program in a temporary folder.
#
# usage: bench/timers.sh
set -euo pipefail
top=$(cd "$(dirname "$0")/.." && pwd)
folder=$(mktemp -d)
trap 'rm -rf "$folder"' EXIT
mkdir -p "$folder/crates/tick/src" "$folder/crates/tick/specs"
cp -r "$top/crates/timers" "$folder/crates/timers"
cp "$top/HANDLES" "$folder/HANDLES"
printf 'timers:\ntick: timers\n' > "$folder/crates.txt"
: > "$folder/crates/tick/specs/Lib.antt"
cat > "$folder/crates/tick/src/main.rt" <<'PROGRAM'
//! Times starts, restarts, and the firings of one tick.
#![tactic(auto)]

use std::alloc::Global;
use std::io;
use std::time::{Clock, Instant};
use timers::Timers;

const FIRINGS: u32 = 100_000;

const RESTARTS: u32 = 100_000;

fn start_all(timers: &mut Timers, count: u32) -> io::Result<()> {
    for i in 0..count {
        timers.start(u64::from(i), 10 + i % 50, i % 4 == 0)?;
    }
    Ok(())
}

fn restart(timers: &mut Timers, serial: u64) -> io::Result<()> {
    for i in 0..RESTARTS {
        timers.start(serial, 1000 + i % 50, false)?;
    }
    Ok(())
}

fn fire_all(timers: &mut Timers, until: u32) -> u32 {
    let mut left = 0;
    for i in 0..FIRINGS {
        match timers.due(u64::from(until)) {
            Some((_, serial)) => timers.fired(serial, true),
            None => left = FIRINGS - i,
        }
    }
    timers.advance(u64::from(until));
    left
}

fn measure(rt: &(impl Print + Clock), alloc: Global, count: u32) -> io::Result<()> {
    let mut timers = Timers::new(alloc);
    let began = Instant::now(rt)?;
    start_all(&mut timers, count)?;
    let starts = began.elapsed(rt)?.as_nanos();
    let began = Instant::now(rt)?;
    restart(&mut timers, 0)?;
    let restarts = began.elapsed(rt)?.as_nanos();
    timers.start(0, 10, false)?;
    let began = Instant::now(rt)?;
    let left = fire_all(&mut timers, u32::MAX);
    let firings = began.elapsed(rt)?.as_nanos();
    println!(rt;
        "{count} timers {starts} {restarts} {firings} {left} {}",
        timers.now()
    )?;
    Ok(())
}

fn main(rt: HostRuntime) -> io::Result<()> {
    for count in [2, 100, 1_000, 10_000] {
        measure(&rt, rt.alloc(), count)?;
    }
    Ok(())
}
PROGRAM
cd "$folder/crates/tick"
rt run > "$folder/log" 2>&1 || { cat "$folder/log"; exit 1; }
awk '$2 == "timers" && $6 == 0 { printf "%d timers: %.0f ns a start, %.0f ns a restart, %.0f ns a firing\n", $1, $3 / $1, $4 / 100000, $5 / 100000 }' "$folder/log"
