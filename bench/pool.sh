#!/usr/bin/env bash
# What several workers are worth: 4,096 module texts that are transformed by 1, 2 and 4 of them.
#
#     bench/pool.sh [PROGRAM]
#
# A small program over transform_pool makes 4,096 texts of some 4 kB each and calls run_jobs with them. It is proved
# before it is built, in a copy of the crates; PROGRAM, where one is given, is that small program, built before.
# Told are the milliseconds by the clock, the best of five runs in turn, without the making of the texts, which a
# run with 0 workers measures; which part that is of one worker's time; and the instructions for each of 1,000
# texts, as valgrind's callgrind counts them over all threads, where it is installed. The clock tells little on a
# machine that is busy or has fewer than four processors; the instructions may rise by 5 % at most from 1 worker to
# 4, else the script fails: an allocation takes more of them in a program that has made a thread.
set -eu
source "$(dirname "${BASH_SOURCE[0]}")/small_program.sh"

program=${1-}
if [ -z "$program" ]; then
  begin pool_bench hmr_types import_scan transform_pool
  cat > "$own/src/main.rt" << 'END'
//! Transforms so many texts by so many workers, so many times over: `pool_bench WORKERS TEXTS TIMES`. With 0
//! workers it makes the texts alone. Tells how many of the results of the last time are modules.
#![tactic(auto)]

mod texts;

use hmr_types::Outcome;
use import_scan::Transformed;
use std::alloc::{AllocError, Global};
use std::env;
use std::process::ExitCode;
use std::thread::Threads;
use texts::jobs;
use transform_pool::run_jobs;

fn number(text: Option<String>) -> u32 {
    text.and_then(|word| word.parse().ok()).unwrap_or(0)
}

fn good(results: &[Transformed]) -> usize {
    results
        .iter()
        .filter(|done| matches!(done.outcome(), Outcome::Good(_)))
        .count()
}

fn transformed<R: Threads + Sync>(
    rt: &R,
    alloc: Global,
    workers: u32,
    texts: u32,
    times: u32,
) -> Result<usize, AllocError> {
    let mut modules = 0;
    for _ in 0..times {
        let jobs = jobs(alloc, texts)?;
        if workers > 0 {
            modules = good(&run_jobs(rt, alloc, jobs, workers as usize)?);
        }
    }
    Ok(modules)
}

fn main(rt: HostRuntime) -> ExitCode {
    let alloc = rt.alloc();
    let out = rt.stdout();
    let Ok(mut words) = env::args(&rt) else {
        return ExitCode::from(2);
    };
    words.next();
    let workers = number(words.next());
    let texts = number(words.next());
    let times = number(words.next());
    let Ok(told) = transformed(&rt, alloc, workers, texts, times) else {
        return ExitCode::from(9);
    };
    match println!(out; "{told}") {
        Ok(()) => ExitCode::from(0),
        Err(_) => ExitCode::from(5),
    }
}
END
  cat > "$own/src/texts.rt" << 'END'
// Texts of modules, each of some 4 kB: declarations, and imports of the modules before.
use hmr_types::ModName;
use std::alloc::{AllocError, Global};
use transform_pool::TextJob;

const LINES: u32 = 40;

fn text(alloc: Global, number: u32) -> Result<String, AllocError> {
    let mut text = format!(in alloc; "// The part {number} of the page, and what it adds up.\n")?;
    for line in 0..LINES {
        let more = format!(in alloc;
            "import {{ total as total{line} }} from './parts/part{line}.js';\n\
             export const value{line} = (1 + (2 * total{line})) - {number};\n"
        )?;
        text.push_str(&more)?;
    }
    Ok(text)
}

fn job(alloc: Global, number: u32) -> Result<TextJob, AllocError> {
    let name = format!(in alloc; "/m{number}.js")?;
    let Ok(name) = ModName::read(alloc, name.as_bytes()) else {
        return Err(AllocError);
    };
    let text = text(alloc, number)?.into_bytes();
    if name.as_str().len() + text.len() > 16_384 {
        return Err(AllocError);
    }
    Ok(TextJob::new(name, text, u64::from(number)))
}

/// The jobs of so many texts.
pub fn jobs(alloc: Global, texts: u32) -> Result<Vec<TextJob>, AllocError> {
    let mut jobs = Vec::new(alloc);
    for number in 0..texts {
        jobs.push(job(alloc, number)?).map_err(|_| AllocError)?;
    }
    Ok(jobs)
}
END
  build 1 1 1
fi
[ -x "$program" ] || { echo "no program at $program" >&2; exit 1; }

python3 - "$program" "$work" << 'END'
import re, shutil, subprocess, sys, time

program, work = sys.argv[1:]
TEXTS, COUNTED, WORKERS = 4096, 1000, (0, 1, 2, 4)


def ran(words):
    done = subprocess.run(words, capture_output=True, text=True)
    if done.returncode:
        sys.exit(f"{' '.join(words)}: status {done.returncode}\n{done.stderr}")
    return done


def timed(workers):
    """The milliseconds of a run by the clock."""
    before = time.perf_counter()
    told = ran([program, str(workers), str(TEXTS), "1"]).stdout
    took = (time.perf_counter() - before) * 1000
    if workers and int(told) != TEXTS:
        sys.exit(f"bench: {told.strip()} of {TEXTS} texts are modules")
    return took


def counted(workers):
    """The instructions of a run with fewer texts."""
    words = ["valgrind", "--tool=callgrind", f"--callgrind-out-file={work}/calls", program, str(workers), str(COUNTED), "1"]
    return int(re.search(r"Collected : (\d+)", ran(words).stderr)[1])


best = {workers: min(times) for workers, times in zip(WORKERS, zip(*[[timed(w) for w in WORKERS] for _ in range(5)]))}
took = {workers: best[workers] - best[0] for workers in WORKERS}
counts = {workers: counted(workers) for workers in WORKERS} if shutil.which("valgrind") else {}
for workers in WORKERS[1:]:
    of_text = f", {(counts[workers] - counts[0]) / COUNTED:,.0f} instructions for each" if counts else ""
    print(f"{workers} workers: {TEXTS} texts {took[workers]:.0f} ms, {took[workers] / took[1]:.2f} of one worker's time{of_text}")
if counts and counts[4] - counts[0] > 1.05 * (counts[1] - counts[0]):
    sys.exit("bench: four workers do more work than one")
END
