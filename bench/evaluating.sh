#!/usr/bin/env bash
# How evaluation grows with the number of variables, and what a handler's run costs beside many of them.
#
#     bench/evaluating.sh [PROGRAM]
#
# A module declares variables, and logs one row that reads them, in an order that goes to and fro. A handler's
# body assigns one of the variables, and logs such a row. Both are parsed once and evaluated many times by a
# small program over const_eval, which is proved before it is built, in a copy of the crates. What is told is
# processor time in user mode for one evaluation, so that other work on the machine counts less: the time of
# some evaluations, less that of none. PROGRAM, where one is given, is that small program, built before.
set -eu
source "$(dirname "${BASH_SOURCE[0]}")/small_program.sh"

program=${1-}
if [ -z "$program" ]; then
  begin eval_bench hmr_types module_tree module_semantics hot_parser retained_data const_eval
  cat > "$own/src/main.rt" << 'END'
//! Evaluates the module of the input so many times over, or runs the body of its callback beside variables
//! `v1`, `v2` and so on, and tells how many lines and assignments the last one made.
#![tactic(auto)]

mod runs;

use hot_parser::parse;
use runs::{bodies_run, modules_run};
use std::env;
use std::io::{self, Read};

fn main(rt: HostRuntime) -> io::Result<()> {
    let alloc = rt.alloc();
    let mut words = env::args(&rt)?.skip(1);
    let (Some(what), Some(variables), Some(times)) = (words.next(), words.next(), words.next())
    else {
        return Ok(());
    };
    let (Ok(variables), Ok(times)) = (variables.parse::<u32>(), times.parse::<u32>()) else {
        return Ok(());
    };
    let mut text = Vec::new(alloc);
    rt.stdin().read_to_end(&mut text)?;
    if text.len() > 4_000_000 {
        return Ok(());
    }
    let Ok(module) = parse(alloc, text.as_slice()) else {
        println!(rt; "no module")?;
        return Ok(());
    };
    let made = if what.as_str() == "module" {
        modules_run(alloc, &module, times)?
    } else {
        bodies_run(alloc, &module, variables, times)?
    };
    println!(rt; "{made}")?;
    Ok(())
}
END
  cat > "$own/src/runs.rt" << 'END'
// Evaluations of one module, and runs of its callback.
use const_eval::{eval_module, run_body};
use hmr_types::{Name, Sequence, Slot, Value};
use module_semantics::{Env, ModParam};
use module_tree::{HandlerCode, Item, Module, Once};
use retained_data::Bag;
use std::alloc::{AllocError, Global};

/// The lines of the last evaluation.
pub fn modules_run(alloc: Global, module: &Module, times: u32) -> Result<usize, AllocError> {
    let imports = Env {
        vars: Sequence::new(alloc),
    };
    let mut made = 0;
    for _ in 0..times {
        let got = eval_module(alloc, module, &imports, Bag::new(alloc))?;
        made = got.lines.as_slice().len();
    }
    Ok(made)
}

/// Variables `v1` to that of this number.
fn variables(alloc: Global, count: u32) -> Result<Vec<(Name, Slot)>, AllocError> {
    let mut vars = Vec::new(alloc);
    for number in 0..count {
        let number = number.wrapping_add(1);
        let name = Name::from_string(format!(in alloc; "v{number}")?);
        vars.push((name, Slot::Val(Value::Num(1))))?;
    }
    Ok(vars)
}

fn body_run(
    alloc: Global,
    code: &HandlerCode,
    own: &[(Name, Slot)],
    times: u32,
) -> Result<usize, AllocError> {
    let imports = Env {
        vars: Sequence::new(alloc),
    };
    let mods: Vec<ModParam> = Vec::new(alloc);
    let mut made = 0usize;
    for _ in 0..times {
        let ran = run_body(alloc, code, own, &imports, &mods, Bag::new(alloc))?;
        made = ran
            .lines
            .as_slice()
            .len()
            .wrapping_add(ran.changes.as_slice().len());
    }
    Ok(made)
}

/// The lines and the assignments of the last run.
pub fn bodies_run(
    alloc: Global,
    module: &Module,
    count: u32,
    times: u32,
) -> Result<usize, AllocError> {
    let own = variables(alloc, count)?;
    for item in &module.items {
        if let Item::Own(Some(Once::Code(code))) = item {
            return body_run(alloc, code, &own, times);
        }
    }
    Ok(0)
}
END
  build
fi

python3 - "$work" << 'END'
"""The texts: a row of reads costs about eight bytes a read."""
import pathlib, sys

work = pathlib.Path(sys.argv[1])


def row(variables, reads):
    return "console.log(" + "+".join(f"v{read * 7919 % variables + 1}" for read in range(reads)) + ")"


for variables, reads in ((2300, 4000), (4600, 8000)):
    declared = "".join(f"let v{n + 1} = {n}\n" for n in range(variables))
    (work / f"module-{variables}").write_text(declared + row(variables, reads) + "\n")
for reads in (3, 1000):
    body = f"let v1 = 1\nimport.meta.hot.accept(() => {{\nv1 = v1 + 1\n{row(2700, reads)}\n}})\n"
    (work / f"body-{reads}").write_text(body)
END

# The seconds that the program takes in user mode; what it writes goes to $work/said.
seconds() { local TIMEFORMAT=%U; { time "$program" "$1" 2700 "$2" < "$work/$3" > "$work/said" 2>&1; } 2>&1; }
told() {
  local what=$1 text=$2 times=$3 expected=$4 none best=1000000 some
  none=$(seconds "$what" 0 "$text")
  for _ in 1 2 3 4 5; do
    some=$(seconds "$what" "$times" "$text")
    [ "$(cat "$work/said")" = "$expected" ] || { echo "bench: $text gives $(cat "$work/said")" >&2; exit 1; }
    best=$(awk -v a="$some" -v b="$best" 'BEGIN { print (a < b) ? a : b }')
  done
  awk -v some="$best" -v none="$none" -v times="$times" -v text="$text" -v bytes="$(wc -c < "$work/$text")" \
    'BEGIN { printf "%-12s %8d bytes %9.4f ms\n", text, bytes, (some - none) * 1000 / times }'
}
told module module-2300 100 1
told module module-4600 50 1
told body body-3 10000 2
told body body-1000 500 2
