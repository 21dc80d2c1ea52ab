#!/usr/bin/env bash
# What it costs a client to run a handler, as its page grows: instructions, counted by valgrind's callgrind.
#
#     bench/fires.sh [PROGRAM [HMR]]
#
# A small program over hot_runtime loads a page of one module with so many variables, and fires 1,000 events at
# it. One callback hears each: it sets one variable and logs it. The program is proved before it is built, in a copy of the
# crates; PROGRAM, where one is given, is that small program, built before. Told are the instructions of a load,
# and those of an event, without the load, for 27, 270 and 2,700 variables, and how many times those of 27 they
# are.
#
# Behind that come the instructions of a `hear` while 1, 100 and 1,000 events wait, reading its line and writing
# what the listener logs included: `play` plays hears, each behind an emission, and the same emissions alone. HMR
# is the built program (crates/dev_program/out/dev_program where none is given; ./hmr --prove builds it), and
# where it isn't there these are left out.
set -eu
source "$(dirname "${BASH_SOURCE[0]}")/small_program.sh"

program=${1-}
hmr=${2:-$top/crates/dev_program/out/dev_program}
if [ -z "$program" ]; then
  begin fire_bench hmr_types update_msgs retained_data handler_table runtime_state runtime_events hot_runtime message_json
  mkdir -p "$own/proofs/fires/fire_all"
  cat > "$own/src/main.rt" << 'END'
//! Loads a page of one module with so many variables, and fires so many events at it, each of which one callback
//! hears that sets a variable and logs it: `fire_bench VARIABLES EVENTS`. Tells how many lines that gave.
#![tactic(auto)]

mod fires;
mod page;

use fires::fired;
use handler_table::host_run;
use page::text_message;
use retained_data::{Bag, Ran};
use std::alloc::AllocError;
use std::env;
use std::process::ExitCode;

fn number(text: Option<String>) -> u32 {
    text.and_then(|word| word.parse().ok()).unwrap_or(0)
}

fn main(rt: HostRuntime) -> ExitCode {
    let alloc = rt.alloc();
    let out = rt.stdout();
    let Ok(mut words) = env::args(&rt) else {
        return ExitCode::from(2);
    };
    words.next();
    let variables = number(words.next());
    let events = number(words.next());
    let Ok(page) = text_message(alloc, variables) else {
        return ExitCode::from(9);
    };
    let make = |number: u32| {
        move |bag: Bag| -> Result<Ran, AllocError> { host_run(alloc, "H", number, bag) }
    };
    let Ok(told) = fired(alloc, make, page.as_str(), events) else {
        return ExitCode::from(9);
    };
    match println!(out; "{told}") {
        Ok(()) => ExitCode::from(0),
        Err(_) => ExitCode::from(5),
    }
}
END
  cat > "$own/src/page.rt" << 'END'
// The module of the page, as its server sends it.
use std::alloc::{AllocError, Global};

/// The message with a module of so many variables, and a callback on `/event/x` that sets the last of them.
pub fn text_message(alloc: Global, variables: u32) -> Result<String, AllocError> {
    let mut text = String::from_str(alloc, r#"{"path":"/m.js","text":""#)?;
    for number in 0..variables {
        let variable = format!(in alloc; "let v{number} = {number}; ")?;
        text.push_str(&variable)?;
    }
    text.push_str("let seen = 0; import.meta.hot.accept('/event/x', ")?;
    text.push_str("(e) => { seen = e?.data; console.log('seen', seen); });")?;
    text.push_str(r#"","type":"text","version":1}"#)?;
    Ok(text)
}
END
  cat > "$own/src/fires.rt" << 'END'
// A client takes the messages of its load, and hears events.
ghost use Rattle.std.specs.Prelude.{◌≡◌, ℕ, IfOk, codes};
ghost use Rattle.handler_table.specs.Held.{IsHost};
ghost use Rattle.update_msgs.specs.Writable.{IsFormat, IsWritable};
ghost use Rattle.runtime_state.specs.Standing.{KeepsWords};

use handler_table::Shelf;
use hmr_types::{ModName, Text, Value};
use runtime_state::HotRuntime;
use message_json::decode;
use retained_data::{Bag, Ran};
use std::alloc::{AllocError, Global};
use update_msgs::ServerMsg;

const CONNECTED: &str = r#"{"client":1,"roots":["/m.js"],"type":"connected"}"#;

const DONE: &str = r#"{"type":"done"}"#;

fn text(alloc: Global, characters: &str) -> Result<Text, AllocError>
    ensures { IfOk result (λ t. t ≡ characters.now) }
{
    Ok(Text::from_string(String::from_str(alloc, characters)?))
}

fn message(alloc: Global, json: &str, format: u8) -> Result<ServerMsg, AllocError>
    requires format { IsFormat format }
    ensures writable { IfOk result (IsWritable format) }
{
    match decode(alloc, json.as_bytes(), format) {
        Ok(msg) => Ok(msg),
        Err(_) => Err(AllocError),
    }
}

fn take<F: FnOnce(Bag) -> Result<Ran, AllocError> + Drop>(
    alloc: Global,
    runtime: &mut HotRuntime<F>,
    json: &str,
) -> Result<(), AllocError>
    requires format { IsFormat runtime.old.format }
    requires callable { (f : F) → F.IsAlwaysCallable f }
    requires words { KeepsWords F.post runtime.old }
    ensures words { KeepsWords F.post runtime.new }
    ensures format { runtime.new.format ≡ runtime.old.format }
{
    let msg = message(alloc, json, runtime.format())?;
    match hot_runtime::take(runtime, msg) {
        Ok(_) => Ok(()),
        Err(_) => Err(AllocError),
    }
}

fn fire<F: FnOnce(Bag) -> Result<Ran, AllocError> + Drop>(
    runtime: &mut HotRuntime<F>,
    name: &ModName,
    value: &Value,
) -> Result<usize, AllocError>
    requires callable { (f : F) → F.IsAlwaysCallable f }
    requires words { KeepsWords F.post runtime.old }
    ensures words { KeepsWords F.post runtime.new }
{
    match runtime_events::fire(runtime, name, value) {
        Ok(Some(lines)) => Ok(lines.len()),
        _ => Err(AllocError),
    }
}

fn fire_all<F: FnOnce(Bag) -> Result<Ran, AllocError> + Drop>(
    alloc: Global,
    runtime: &mut HotRuntime<F>,
    events: u32,
) -> Result<usize, AllocError>
    requires callable { (f : F) → F.IsAlwaysCallable f }
    requires words { KeepsWords F.post runtime.old }
{
    let Ok(name) = ModName::read(alloc, b"/event/x") else {
        return Err(AllocError);
    };
    let value = Value::Str(text(alloc, "news")?);
    let mut lines = 0usize;
    for _ in 0..events {
        lines = lines.wrapping_add(fire(runtime, &name, &value)?);
    }
    Ok(lines)
}

fn load_and_fire<F: FnOnce(Bag) -> Result<Ran, AllocError> + Drop>(
    alloc: Global,
    runtime: &mut HotRuntime<F>,
    page: &str,
    events: u32,
) -> Result<usize, AllocError>
    requires format { IsFormat runtime.old.format }
    requires callable { (f : F) → F.IsAlwaysCallable f }
    requires words { KeepsWords F.post runtime.old }
{
    take(alloc, runtime, CONNECTED)?;
    take(alloc, runtime, page)?;
    take(alloc, runtime, DONE)?;
    fire_all(alloc, runtime, events)
}

/// How many lines so many events give at a new client that loaded the page of this message. `make` makes
/// closures of their numbers: its shelf has one.
pub fn fired<F: FnOnce(Bag) -> Result<Ran, AllocError> + Drop, M: Fn(u32) -> F + Drop>(
    alloc: Global,
    make: M,
    page: &str,
    events: u32,
) -> Result<usize, AllocError>
    requires makes { M.IsAlwaysCallable make }
    requires callable { (f : F) → F.IsAlwaysCallable f }
    requires hosts { (n : ℕ) (f : F) → M.post make n f → IsHost F.post (record { label = codes "H"; number = n; call = f }) }
{
    let label = text(alloc, "H")?;
    let mut shelf = Shelf::new(Vec::new(alloc));
    if let Err(refused) = shelf.fill(&label, 1, 2, make) {
        shelf.end();
        return Err(refused);
    }
    let mut runtime = HotRuntime::new(alloc, shelf, Vec::new(alloc), 1);
    let told = load_and_fire(alloc, &mut runtime, page, events);
    runtime.end();
    told
}
END
  cat > "$own/proofs/fires/fire_all/Invariants.antt" << 'END'
use Rattle.runtime_state.specs.Standing.{KeepsWords}
use Rattle.fire_bench.proofs.fires.fire_all.Given as goal

-- what is held keeps its word
abbrev pub invariant-loop : goal.invariant-loop
invariant-loop g l = KeepsWords (goal.F-post g) l.runtime
END
  build 1 1
fi
[ -x "$program" ] || { echo "no program at $program" >&2; exit 1; }
command -v valgrind > /dev/null || { echo 'bench: valgrind is not installed' >&2; exit 1; }

python3 - "$program" "$work" "$hmr" << 'END'
import os, re, subprocess, sys

program, work, hmr = sys.argv[1:]
EVENTS = 1000
HEARS = 20
PAGE = """root /m.js
quiet
edit /m.js
|let seen = 0;
|import.meta.hot.on("x", (e) => { seen = e.data; console.log("seen", seen); });
settle
open
turns 1 9
"""


def calls(words, given=""):
    """What a program writes, and its instructions."""
    counted = ["valgrind", "--tool=callgrind", f"--callgrind-out-file={work}/calls", *words]
    ran = subprocess.run(counted, input=given, capture_output=True, text=True)
    if ran.returncode:
        sys.exit(f"{' '.join(words)}: status {ran.returncode}\n{ran.stdout}{ran.stderr}")
    return ran.stdout, int(re.search(r"Collected : (\d+)", ran.stderr)[1])


def counted(variables, events):
    """The instructions of a run, which tells a line for each event."""
    told, instructions = calls([program, str(variables), str(events)])
    if int(told) != events:
        sys.exit(f"{program} {variables} {events} told {told}")
    return instructions


def played(waiting, hears):
    """The instructions of a script in which so many events wait, and as many more as there are hears."""
    more = "emit x news\n" + ("hear 1\n" if hears else "")
    told, instructions = calls([hmr, "play"], PAGE + "emit x news\n" * waiting + more * HEARS)
    if told.count("1 event x\n1 log /m.js seen news\n") != hears:
        sys.exit(f"play told\n{told}")
    return instructions


least = None
for variables in (27, 270, 2700):
    load = counted(variables, 0)
    each = (counted(variables, EVENTS) - load) / EVENTS
    least = least or each
    print(f"{variables:>5} variables: load {load:,}, event {each:,.0f} instructions, {each / least:.1f} times that on 27", flush=True)

if not os.access(hmr, os.X_OK):
    print(f"no program at {hmr}: ./hmr --prove builds it; no hear is counted", file=sys.stderr)
    sys.exit()
least = None
for waiting in (1, 100, 1000):
    each = (played(waiting, HEARS) - played(waiting, 0)) / HEARS
    least = least or each
    print(f"{waiting:>5} waiting: a hear {each:,.0f} instructions, {each / least:.2f} times that where 1 waits", flush=True)
END
