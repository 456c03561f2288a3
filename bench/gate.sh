#!/usr/bin/env bash
# Times 100,000 turns of a question and its answer between two threads: over a gate, and over a pair of
# the kit's channels with room for one message. Builds the program in a temporary folder.
#
# usage: bench/gate.sh
set -euo pipefail
top=$(cd "$(dirname "$0")/.." && pwd)
folder=$(mktemp -d)
trap 'rm -rf "$folder"' EXIT
mkdir -p "$folder/crates/turns/src" "$folder/crates/turns/specs" "$folder/crates/turns/proofs/ask_all" "$folder/crates/turns/proofs/serve"
cp -r "$top/crates/baton" "$folder/crates/baton"
cp "$top/HANDLES" "$folder/HANDLES"
printf 'baton: atomic_table\nturns: baton crossbeam_channel\n' > "$folder/crates.txt"
: > "$folder/crates/turns/specs/Lib.antt"
cat > "$folder/crates/turns/src/main.rt" <<'PROGRAM'
//! Times turns between two threads.
#![tactic(auto)]

ghost use Rattle.std.specs.Prelude.{◌≡◌};
ghost use Rattle.baton.specs.declared.view.Stage.TheVariants.{Idle, Waiting, Dismissed};

use baton::{Asker, Server, Turns, pair};
use crossbeam_channel::{Receiver, Sender, bounded};
use std::alloc::{AllocError, Global};
use std::io;
use std::snapshot::Snapshot;
use std::sync::Wait;
use std::thread;
use std::thread::{Promise, Threads};
use std::time::{Clock, Instant};

const TURNS: u32 = 100_000;

struct Flips;

impl Turns for Flips {
    type Question = u64;

    type Answer = u64;

    type Asked = u64;

    type Told = u64;

    ghost asked = { λ question. question };

    ghost told = { λ answer. answer };

    ghost may_ask = { λ turns question. Unit {0} };

    ghost may_answer = { λ turns question answer. Unit {0} };
}

#[derive(Drop)]
struct Served(Snapshot<Server<Flips>>);

impl Promise<Server<Flips>> for Served {
    ghost kept_by = { λ promise server. (server.gate ≡ promise.0.value.gate) × (server.stage ≡ Dismissed) };
}

fn serve<R: Wait + Copy>(rt: R, mut server: Server<Flips>) -> Server<Flips>
    requires { server.stage ≡ Waiting }
    ensures { (result.gate ≡ server.gate) × (result.stage ≡ Dismissed) }
{
    for _ in rt.forever() {
        let Some(question) = server.next(&rt) else {
            return server;
        };
        server.answer(question ^ 1);
    }
    unreachable!()
}

fn ask_all<R: Wait>(rt: &R, asker: &mut Asker<Flips>) -> u64
    requires { asker.old.stage ≡ Idle }
    ensures { (asker.new.stage ≡ Idle) × (asker.new.gate ≡ asker.old.gate) }
{
    let mut last = 0;
    for _ in 0..TURNS {
        asker.ask(last);
        last = asker.collect(rt);
    }
    last
}

fn over_a_gate<R: Threads + Wait + Copy + Send + 'static>(rt: R, alloc: Global) -> Result<u64, AllocError> {
    let (mut asker, server) = pair::<Flips>(alloc)?;
    let promise = Served(Snapshot::of(&server));
    match thread::spawn_with(&rt, promise, move || serve(rt, server)) {
        Ok(child) => {
            let last = ask_all(&rt, &mut asker);
            asker.close().meet(child.join(&rt));
            Ok(last)
        }
        Err(refused) => {
            asker.close().meet((refused.value)());
            Err(AllocError)
        }
    }
}

fn flip_all<R: Wait>(rt: &R, questions: Receiver<u64>, answers: Sender<u64>) {
    for _ in rt.forever() {
        let Ok(question) = questions.recv(rt) else {
            return;
        };
        let _ = answers.send(rt, question ^ 1);
    }
    unreachable!()
}

fn over_channels<R: Threads + Wait + Copy + Send + 'static>(rt: R, alloc: Global) -> Result<u64, AllocError> {
    let (ask, questions) = bounded(alloc, 1)?;
    let (tell, answers) = bounded(alloc, 1)?;
    let child = thread::spawn(&rt, move || flip_all(&rt, questions, tell))?;
    let mut last = 0;
    for _ in 0..TURNS {
        let _ = ask.send(&rt, last);
        if let Ok(answer) = answers.recv(&rt) {
            last = answer;
        }
    }
    drop(ask);
    child.join(&rt);
    Ok(last)
}

fn main(rt: HostRuntime) -> io::Result<()> {
    let alloc: Global = rt.alloc();
    for _ in 0..3 {
        let began = Instant::now(&rt)?;
        let last = over_a_gate(rt, alloc)?;
        let gate = began.elapsed(&rt)?.as_nanos();
        let began = Instant::now(&rt)?;
        let other = over_channels(rt, alloc)?;
        let channels = began.elapsed(&rt)?.as_nanos();
        println!(rt; "turns {gate} {channels} {last} {other}")?;
    }
    Ok(())
}
PROGRAM
: > "$folder/crates/turns/proofs/Lib.antt"
cat > "$folder/crates/turns/proofs/serve/Invariants.antt" <<'INVARIANT'
use Rattle.std.proofs.Common.{◌≡◌}
use Rattle.baton.specs.declared.view.Stage.TheVariants.{Waiting}
use Rattle.turns.proofs.serve.Given as goal

abbrev pub invariant-loop : goal.invariant-loop
invariant-loop g l = (l.server.stage ≡ Waiting) × (l.server.gate ≡ l.initial.server.gate)
INVARIANT
cat > "$folder/crates/turns/proofs/ask_all/Invariants.antt" <<'INVARIANT'
use Rattle.std.proofs.Common.{◌≡◌}
use Rattle.baton.specs.declared.view.Stage.TheVariants.{Idle}
use Rattle.turns.proofs.ask_all.Given as goal

abbrev pub invariant-loop : goal.invariant-loop
invariant-loop g l = (l.asker.stage ≡ Idle) × (l.asker.gate ≡ l.initial.asker.gate)
INVARIANT
cd "$folder/crates/turns"
rt run > "$folder/log" 2>&1 || { cat "$folder/log"; exit 1; }
awk '$1 == "turns" { printf "gate: %.0f turns a second, %.1f us a turn; channels: %.0f turns a second, %.1f us a turn\n", 1e14 / $2, $2 / 1e8, 1e14 / $3, $3 / 1e8 }' "$folder/log"
