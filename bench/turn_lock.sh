#!/usr/bin/env bash
# Calls per second of the turn lock, from one thread and from four, beside a Mutex of plain Rust:
#
#     bench/turn_lock.sh [CALLS]
#
# CALLS (1,000,000 where none is given) is how many calls one thread makes; with four threads each makes a
# quarter. The value under the lock adds numbers up. It keeps no list, so that the lock is measured and not
# memory: no call is recorded. The Rattle program is proved before it is built, in a copy of the lock's crate,
# and measured by the clock of this script, start of the program included.
set -eu
source "$(dirname "${BASH_SOURCE[0]}")/small_program.sh"
calls=${1:-1000000}

begin turn_bench turn_lock
cat > "$own/src/main.rt" << 'END'
//! Makes calls under a turn lock: `turn_bench THREADS CALLS`, with one thread or four.
#![tactic(auto)]

mod sums;

use std::env;
use std::process::ExitCode;
use sums::{four, one};

fn number(text: Option<String>) -> u64 {
    text.and_then(|word| word.parse().ok()).unwrap_or(0)
}

fn main(rt: HostRuntime) -> ExitCode {
    let alloc = rt.alloc();
    let Ok(mut words) = env::args(&rt) else {
        return ExitCode::from(2);
    };
    words.next();
    let threads = number(words.next());
    let calls = number(words.next());
    let done = if threads == 4 {
        four(&rt, alloc, calls / 4)
    } else {
        one(&rt, alloc, calls)
    };
    ExitCode::from(if done { 0 } else { 1 })
}
END
cat > "$own/src/sums.rt" << 'END'
// A sum under a turn lock, and threads that add to it.
ghost use Rattle.std.specs.Prelude.{◌≡◌, ⊤, [], false, true};
ghost use Rattle.turn_lock.specs.Passes.{IsPassOf};

use std::alloc::Global;
use std::sync::Wait;
use std::thread;
use std::thread::Threads;
use turn_lock::{Keeps, Pass, TurnLock};

#[derive(Drop)]
pub struct Sum {
    total: u64,
}

impl Keeps for Sum {
    type Entry = u64;

    type Reply = u64;

    ghost history = { λ sum. [] };

    ghost may = { λ by entry. true };

    ghost follows = { λ opening sum. ⊤ };

    ghost answers = { λ opening history by entry reply recorded. recorded ≡ false };

    fn apply(&mut self, by: u64, entry: u64) -> (u64, bool) {
        let _by = by;
        self.total = self.total.wrapping_add(entry);
        (self.total, false)
    }
}

fn add<R: Wait>(rt: &R, lock: &TurnLock<Sum>, mut pass: Pass<Sum, u64>, calls: u64)
    requires { IsPassOf lock.now pass }
{
    for amount in 0..calls {
        lock.call(rt, &mut pass, amount);
    }
}

pub fn one<R: Wait>(rt: &R, alloc: Global, calls: u64) -> bool {
    let Ok((lock, pass)) = TurnLock::new(alloc, Sum { total: 0 }) else {
        return false;
    };
    add(rt, &lock, pass, calls);
    true
}

fn two<R: Threads + Wait + Sync>(
    rt: &R,
    lock: &TurnLock<Sum>,
    mut pass: Pass<Sum, u64>,
    calls: u64,
)
    requires { IsPassOf lock.now pass }
{
    let Ok(half) = lock.split(rt, &mut pass) else {
        return;
    };
    thread::join(rt, || add(rt, lock, pass, calls), || add(rt, lock, half, calls));
}

fn halves<R: Threads + Wait + Sync>(
    rt: &R,
    lock: &TurnLock<Sum>,
    mut pass: Pass<Sum, u64>,
    calls: u64,
)
    requires { IsPassOf lock.now pass }
{
    let Ok(half) = lock.split(rt, &mut pass) else {
        return;
    };
    thread::join(
        rt,
        || requires { IsPassOf lock.now pass } { two(rt, lock, pass, calls) },
        || requires { IsPassOf lock.now half } { two(rt, lock, half, calls) },
    );
}

pub fn four<R: Threads + Wait + Sync>(rt: &R, alloc: Global, calls: u64) -> bool {
    let Ok((lock, pass)) = TurnLock::new(alloc, Sum { total: 0 }) else {
        return false;
    };
    halves(rt, &lock, pass, calls);
    true
}
END
mkdir -p "$own/proofs/sums/add"
cat > "$own/proofs/sums/add/Invariants.antt" << 'END'
use Rattle.turn_lock.specs.Passes.{IsPassOf}
use Rattle.turn_bench.proofs.sums.add.Given as goal

abbrev pub invariant-loop-amount : goal.invariant-loop-amount
invariant-loop-amount g l = IsPassOf l.lock l.pass
END
build 1 0

cat > "$work/mutex.rs" << 'END'
use std::sync::{Arc, Mutex};
fn main() {
    let words: Vec<u64> = std::env::args().skip(1).filter_map(|word| word.parse().ok()).collect();
    let (threads, calls) = (words[0], words[1]);
    let sum = Arc::new(Mutex::new(0u64));
    let running: Vec<_> = (0..threads)
        .map(|_| {
            let sum = Arc::clone(&sum);
            std::thread::spawn(move || {
                for amount in 0..calls / threads {
                    let mut total = sum.lock().unwrap();
                    *total = total.wrapping_add(amount);
                }
            })
        })
        .collect();
    for thread in running {
        thread.join().unwrap();
    }
    println!("{}", sum.lock().unwrap());
}
END
rustc -O -o "$work/mutex" "$work/mutex.rs"

# Prints the calls per second of the best of five runs.
rate() {
  local best=0 begin end took
  for _ in 1 2 3 4 5; do
    begin=$(date +%s%N)
    "$@" > "$work/said"
    end=$(date +%s%N)
    took=$((end - begin))
    if [ $((calls * 1000000000 / took)) -gt "$best" ]; then best=$((calls * 1000000000 / took)); fi
  done
  printf '%s' "$best"
}

lock="$program"
one=$(rate "$lock" 1 "$calls")
four=$(rate "$lock" 4 "$calls")
printf 'turn lock  one thread %12s calls/s   four threads %12s calls/s\n' "$one" "$four"
printf 'Mutex      one thread %12s calls/s   four threads %12s calls/s\n' \
  "$(rate "$work/mutex" 1 "$calls")" "$(rate "$work/mutex" 4 "$calls")"
[ $((four * 4)) -ge "$one" ] || { echo 'bench: four threads make less than a quarter of the calls of one' >&2; exit 1; }
