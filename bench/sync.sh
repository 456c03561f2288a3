#!/usr/bin/env bash
# Times syncs of a scene of 10,000 items, each with one rectangle, all below the content item: the first sync,
# which makes all nodes, and then 20 syncs after 1, 100 and all but the content item were moved. Builds the
# program in a temporary folder.
#
# usage: bench/sync.sh
set -euo pipefail
top=$(cd "$(dirname "$0")/.." && pwd)
folder=$(mktemp -d)
trap 'rm -rf "$folder"' EXIT
mkdir -p "$folder/crates/step/src" "$folder/crates/step/specs"
for crate in links item_geometry scene sg_nodes sg_standing sg_sync sync_tests; do
    mkdir "$folder/crates/$crate"
    cp -r "$top/crates/$crate/src" "$folder/crates/$crate/"
    for part in specs proofs; do
        [ -d "$top/crates/$crate/$part" ] && cp -r "$top/crates/$crate/$part" "$folder/crates/$crate/"
    done
done
cp "$top/HANDLES" "$folder/HANDLES"
cat > "$folder/crates.txt" <<'CRATES'
links:
item_geometry:
scene: links item_geometry
sg_nodes: links slab
sg_standing: links item_geometry scene sg_nodes
sg_sync: links item_geometry scene sg_nodes sg_standing
sync_tests: links item_geometry scene sg_nodes sg_standing sg_sync
step: item_geometry scene sg_nodes sg_sync sync_tests
CRATES
: > "$folder/crates/step/specs/Lib.antt"
cat > "$folder/crates/step/src/main.rt" <<'PROGRAM'
//! Times syncs.
#![tactic(auto)]

use item_geometry::{RectPart, Rects};
use std::alloc::Global;
use std::io;
use std::time::{Clock, Instant};
use sync_tests::stage::{Look, ROOT, Stage};

const ITEMS: u64 = 10_000;

const ROUNDS: i32 = 20;

fn look(x: i32) -> Look {
    Look {
        x,
        shown: true,
        rects: Rects::One(RectPart {
            x: 0,
            y: 0,
            w: 10,
            h: 10,
            argb: 0xffff_0000,
        }),
        under: 0,
        reversed: false,
    }
}

/// The content item, and below it all the others.
fn fan(alloc: Global) -> io::Result<Stage> {
    let mut stage = Stage::new(alloc, look(0))?;
    for serial in 2..ITEMS + 1 {
        stage = stage.grown(alloc, ROOT, serial, look(0))?;
    }
    Ok(stage)
}

fn moved(stage: Stage, alloc: Global, x: i32, count: u64) -> io::Result<Stage> {
    let mut stage = stage;
    for i in 0..count {
        stage = stage.repainted(alloc, ROOT.saturating_add(i).saturating_add(1), look(x))?;
    }
    Ok(stage)
}

/// The time of all rounds, and what the last one did.
fn rounds(rt: &impl Clock, alloc: Global, stage: Stage, count: u64) -> io::Result<(u128, u64, u64)> {
    let mut stage = stage;
    let mut time: u128 = 0;
    let mut visits = 0;
    let mut made = 0;
    for x in 0..ROUNDS {
        let changed = moved(stage, alloc, x, count)?;
        let began = Instant::now(rt)?;
        let (next, synced) = changed.synced(alloc)?;
        time = time.saturating_add(began.elapsed(rt)?.as_nanos());
        visits = synced.visits;
        made = synced.made;
        stage = next;
    }
    Ok((time, visits, made))
}

fn measure(rt: &(impl Print + Clock), alloc: Global, count: u64) -> io::Result<()> {
    let stage = fan(alloc)?;
    let began = Instant::now(rt)?;
    let (stage, first) = stage.synced(alloc)?;
    let first_time = began.elapsed(rt)?.as_nanos();
    let (time, visits, made) = rounds(rt, alloc, stage, count)?;
    println!(rt;
        "{count} dirty {first_time} {time} {} {visits} {made}",
        first.made
    )?;
    Ok(())
}

fn main(rt: HostRuntime) -> io::Result<()> {
    for count in [1, 100, ITEMS - 1] {
        measure(&rt, rt.alloc(), count)?;
    }
    Ok(())
}
PROGRAM
cd "$folder/crates/step"
rt run > "$folder/log" 2>&1 || { cat "$folder/log"; exit 1; }
awk '$2 == "dirty" { printf "%d dirty: the first sync %.2f ms (%d nodes made), a later one %.3f ms (%d visits, %d nodes made)\n", $1, $3 / 1e6, $5, $4 / 20 / 1e6, $6, $7 }' "$folder/log"
