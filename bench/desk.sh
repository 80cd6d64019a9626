#!/bin/sh
# What a desk costs.
# 1. By 1, 4, 16 and 64 threads with work between their asks: how much is left of the throughput of the same
#    program without asks, alone and beside as many busy processes as there are threads.
# 2. Asks a second by one thread and by four, with no work between them.
# 3. 10^6 and 10^7 asks by two threads over a ledger that keeps nothing: the most memory that was in use.
# 4. Asks a second after a short and a long history in one run, over a ledger that keeps every entry.
# It is no part of the gate: it builds a program over copies of the crates, in a folder of its own.
# Usage: bench/desk.sh [WORK [FOLDER]]     (WORK: rounds of work between two asks, by default 5000, some 10
# microseconds; FOLDER: by default a temporary one, removed at the end)
set -eu
between=${1:-5000}
top=$(cd "$(dirname "$0")/.." && pwd)
. "$top/bench/lay-out.sh"
lay_out "${2:-}" desk_bench 'link_port turn_desk shared_work' 'turn_desk shared_work link_port'
mkdir -p proofs/ask_between proofs/ask_many proofs/askers proofs/by_threads
cat > proofs/ask_between/Invariants.antt <<'PROOF'
use Rattle.turn_desk.specs.Passes.{IsOf}
use Rattle.desk_bench.proofs.ask_between.Given as goal

abbrev pub invariant-loop : goal.invariant-loop
invariant-loop g l = IsOf l.desk l.asker.pass
PROOF
cat > proofs/ask_many/Invariants.antt <<'PROOF'
use Rattle.std.proofs.Common.{◌≡◌}
use Rattle.turn_desk.specs.Passes.{IsOf, all_asks}
use Rattle.desk_bench.proofs.ask_many.Given as goal

abbrev pub invariant-loop : goal.invariant-loop
invariant-loop g l = IsOf l.desk l.pass × (all_asks l.pass ≡ all_asks l.fn.pass)
PROOF
cat > proofs/askers/Invariants.antt <<'PROOF'
use Rattle.std.specs.Prelude.{All}
use Rattle.turn_desk.specs.Passes.{IsOf}
use Rattle.desk_bench.proofs.askers.Given as goal

abbrev pub invariant-loop : goal.invariant-loop
invariant-loop l = IsOf l.desk l.pass × All (λ w. IsOf l.desk w.pass) l.askers.items
PROOF
cat > proofs/Lib.antt <<'PROOF'
mod Sharing
PROOF
cat > proofs/Sharing.antt <<'PROOF'
use denote.Param.Send.{IsSend, sendable}
use Rattle.std.proofs.Crossing.{crosses}
use Rattle.turn_desk.proofs.Sharing.{pass_send, forgotten_send}
use Rattle.desk_bench.specs.contracts.Total as object
use Rattle.desk_bench.specs.contracts.Asker as asker

pub total_send : IsSend object.the_row
total_send = search (sendable, crosses) depth 20

pub asker_send : IsSend asker.the_row
asker_send = search (sendable, crosses, pass_send, forgotten_send, total_send) depth 20
PROOF
cat > proofs/by_threads/Answers.antt <<'PROOF'
use denote.Param.Send.{sendable}
use Rattle.turn_desk.proofs.Sharing.{desk_sync, forgotten_send}
use Rattle.desk_bench.proofs.Sharing.{total_send, asker_send}
use Rattle.desk_bench.proofs.by_threads.Goals as goal

pub each-requires-send-W : goal.each-requires-send-W
each-requires-send-W g c κs within = search (sendable, asker_send) depth 20

pub each-requires-sync-D : goal.each-requires-sync-D
each-requires-sync-D g c κs within = search (sendable, desk_sync, total_send, forgotten_send) depth 20
PROOF
cat > src/main.rt <<'PROGRAM'
//! Asks at a desk, by so many threads and with so much work between them.
#![tactic(auto)]

ghost use Rattle.std.specs.Prelude.{◌≡◌, ◌<◌, All, IfOk};
ghost use Rattle.turn_desk.specs.Passes.{IsOf, all_asks};

use link_port::Memory;
use shared_work::{Work, each};
use std::alloc::Global;
use std::env;
use std::io;
use std::rt::Clock;
use std::sync::Wait;
use std::thread::Threads;
use std::time::Instant;
use turn_desk::{Desk, Forgotten, Kept, Object, Pass};

#[derive(Drop)]
struct Total {
    sum: u64,
}

impl Object for Total {
    type Request = u64;

    type Reply = u64;

    ghost use Rattle.std.specs.Prelude.{ℕ, ◌+◌, ◌%◌, ◌^◌};

    ghost good = { λ s n. Unit {0} };

    ghost after = { λ s n. record { sum = (s.sum + n) % 2 ^ 64 } };

    ghost answer = { λ s n. (s.sum + n) % 2 ^ 64 };

    ghost weigh = { λ n. 64 };

    ghost lasting = { λ s q r h. ((λ x. x), λ x. x) };

    fn step(&mut self, _alloc: Global, request: &u64) -> Result<u64, Memory> {
        self.sum = self.sum.wrapping_add(*request);
        Ok(self.sum)
    }

    fn weight(&self, _request: &u64) -> u64 {
        64
    }
}

/// How many threads, how often each asks, how much it works between, and whether it asks at all.
#[derive(Clone, Copy)]
struct Job {
    threads: usize,
    rounds: u64,
    work: u64,
    asks: bool,
}

/// A thread that works and asks in turns.
#[derive(Drop)]
struct Asker {
    pass: Pass<Total, Forgotten>,
    alloc: Global,
    job: Job,
    sum: u64,
}

impl Work<Desk<Total, Forgotten>> for Asker {
    ghost use Rattle.turn_desk.specs.Passes.{IsOf};

    ghost ready = { λ asker desk. IsOf desk asker.pass };

    ghost done = { λ asker desk after. IsOf desk after.pass };

    fn work<R: Wait>(&mut self, rt: &R, desk: &Desk<Total, Forgotten>) {
        ask_between(rt, desk, self);
    }
}

fn ask_between<R: Wait>(rt: &R, desk: &Desk<Total, Forgotten>, asker: &mut Asker)
    requires { IsOf desk.now asker.old.pass }
    ensures { IsOf desk.now asker.new.pass }
{
    for _ in 0..asker.job.rounds {
        asker.sum = worked(asker.sum, asker.job.work);
        if asker.job.asks {
            let _ = desk.ask(rt, asker.alloc, &mut asker.pass, 1);
        }
    }
}

fn worked(seed: u64, rounds: u64) -> u64 {
    let mut sum = seed;
    for _ in 0..rounds {
        sum ^= sum << 13;
        sum ^= sum >> 7;
        sum ^= sum << 17;
    }
    sum
}

fn askers(
    alloc: Global,
    desk: &Desk<Total, Forgotten>,
    mut pass: Pass<Total, Forgotten>,
    job: Job,
) -> Result<Vec<Asker>, Memory>
    requires { IsOf desk.now pass }
    ensures { IfOk result (λ askers. All (λ w. IsOf desk.now w.pass) askers.items) }
{
    let mut askers: Vec<Asker> = Vec::new(alloc);
    for _ in 0..job.threads {
        if pass.left() <= 1 << 40 {
            return Err(Memory);
        }
        let own = desk.split(&mut pass, 1 << 40);
        if askers.push(Asker { pass: own, alloc, job, sum: 1 }).is_err() {
            return Err(Memory);
        }
    }
    Ok(askers)
}

fn no_memory() -> io::Error {
    io::Error::from(io::ErrorKind::OutOfMemory)
}

/// The nanoseconds that the job took, and a number that comes of all the work.
fn by_threads<R: Threads + Wait + Clock + Sync>(
    rt: &R,
    alloc: Global,
    job: Job,
) -> io::Result<(u128, u64)> {
    if job.threads == 0 {
        return Ok((0, 0));
    }
    let (desk, pass): (Desk<Total, Forgotten>, _) =
        Desk::start(alloc, Total { sum: 0 }, 1 << 62).map_err(|_| no_memory())?;
    let mut workers = askers(alloc, &desk, pass, job).map_err(|_| no_memory())?;
    let start = Instant::now(rt)?;
    each(rt, &desk, workers.as_mut_slice(), job.threads);
    let spent = start.elapsed(rt)?.as_nanos();
    let sum = workers.iter().fold(0u64, |sum, w| sum.wrapping_add(w.sum).wrapping_add(w.pass.asked()));
    Ok((spent, sum))
}

fn ask_many<R: Wait>(
    rt: &R,
    alloc: Global,
    desk: &Desk<Total, Kept<u64>>,
    mut pass: Pass<Total, Kept<u64>>,
    times: u64,
) -> Pass<Total, Kept<u64>>
    requires { IsOf desk.now pass }
    ensures desk { IsOf desk.now result }
    ensures asks { all_asks result ≡ all_asks pass }
{
    for _ in 0..times {
        let _ = desk.ask(rt, alloc, &mut pass, 1);
    }
    pass
}

fn per_second(asks: u64, nanoseconds: u128) -> u128 {
    if nanoseconds == 0 { 0 } else { asks as u128 * 1_000_000_000 / nanoseconds }
}

fn long_history<R: Wait + Clock + Print>(rt: &R, alloc: Global) -> io::Result<()> {
    let Ok((desk, pass)) = Desk::start(alloc, Total { sum: 0 }, 1 << 62) else {
        return Err(no_memory());
    };
    let pass = ask_many(rt, alloc, &desk, pass, 1_000);
    let start = Instant::now(rt)?;
    let pass = ask_many(rt, alloc, &desk, pass, 10_000);
    let short = start.elapsed(rt)?.as_nanos();
    let pass = ask_many(rt, alloc, &desk, pass, 989_000);
    let start = Instant::now(rt)?;
    let pass = ask_many(rt, alloc, &desk, pass, 10_000);
    let long = start.elapsed(rt)?.as_nanos();
    let (total, ledger) = desk.close(pass);
    let (short, long) = (per_second(10_000, short), per_second(10_000, long));
    println!(rt; "after 10^3 entries: {short} asks a second; after 10^6: {long}")?;
    println!(rt; "total {}, {} entries", total.sum, ledger.into_list().len())
}

fn number(word: Option<String>) -> u64 {
    match word {
        Some(text) => text.as_str().parse::<u64>().unwrap_or(0),
        None => 0,
    }
}

fn main(rt: HostRuntime) -> io::Result<()> {
    let mut words = env::args(&rt)?.skip(1);
    let threads = number(words.next()) as usize;
    let rounds = number(words.next());
    let work = number(words.next());
    let asks = number(words.next()) > 0;
    if threads == 0 {
        return long_history(&rt, rt.alloc());
    }
    let job = Job { threads, rounds, work, asks };
    let (spent, sum) = by_threads(&rt, rt.alloc(), job)?;
    println!(rt; "{spent} {sum}")
}
PROGRAM
rt run > run.log 2>&1 || { cat run.log; exit 1; }

# nanoseconds THREADS ROUNDS WORK ASKS: the best of three runs
nanoseconds() {
    for _ in 1 2 3; do ./out/desk_bench "$@"; done | cut -d ' ' -f 1 | sort -n | head -n 1
}
# row THREADS: the share of the throughput that is left with asks
row() {
    rounds=$((160000 / $1))
    bare=$(nanoseconds "$1" "$rounds" "$between" 0)
    asking=$(nanoseconds "$1" "$rounds" "$between" 1)
    echo "$1 threads$2: $((bare * 100 / asking)) % of the throughput without asks is left"
}
busy=
trap 'for id in $busy; do kill "$id" 2> /dev/null || :; done; [ -n "${2:-}" ] || rm -rf "$work"' EXIT
one=$(nanoseconds 1 20000 "$between" 0)
echo "work between two asks: $((one / 20000)) nanoseconds"
for threads in 1 4 16 64; do row "$threads" ''; done
for threads in 1 4 16 64; do
    for _ in $(seq "$threads"); do
        sh -c 'while :; do :; done' &
        busy="$busy $!"
    done
    row "$threads" " beside $threads busy processes"
    for id in $busy; do kill "$id"; done
    busy=
done
for threads in 1 4; do
    spent=$(nanoseconds "$threads" $((2000000 / threads)) 0 1)
    echo "$threads threads, no work: $((2000000 * 1000 / (spent / 1000000 + 1))) asks a second"
done
for rounds in 500000 5000000; do
    ./out/desk_bench 2 "$rounds" 0 1 > asked.log &
    id=$!
    while now=$(sed -n 's/^VmHWM:[ \t]*//p' "/proc/$id/status" 2> /dev/null) && [ -n "$now" ]; do
        most=$now
        sleep 0.01
    done
    wait "$id"
    echo "$((2 * rounds)) asks by two threads, nothing kept: $most"
done
./out/desk_bench
