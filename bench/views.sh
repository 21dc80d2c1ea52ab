#!/usr/bin/env bash
# What the views of a page cost: instructions, counted by valgrind's callgrind, of what is done to one view.
#
#     bench/views.sh [PROGRAM]
#
# A small program over module_graph, propagate and prune_list makes the view of a page of so many modules and does
# one thing to it so many times. It is proved before it is built, in a copy of the crates; PROGRAM, where one is
# given, is that small program, built before. What is told is the difference of two runs, so that the start of
# the program and the page that both make count for nothing, and it is the same however busy the machine is:
#
# - ask: how far a change of the last module of a tree spreads, which accepts itself (each module imports up to four
#   more), by 2,000 and by 1,000 asks. An ask on 4,096 modules may cost at most 1.3 times one on 400.
# - rise: the same in a page in which module i imports the modules i + 1 to i + 4, so that a change of the last
#   goes up to the root, which accepts itself, and replaces all. It is to be linear in the imports.
# - build: the view of a tree of n modules is made. It is to take the time of n log n.
# - drop: the last names of such a page as in `rise` leave in one call: half of them, and 512. It is to cost one walk
#   of the view, and for each name the look-ups of what it imports.
# - prune: what the root of a tree doesn't reach is looked for. It is to be linear but for look-ups.
#
# A look-up takes the time of a logarithm, so what is linear may cost 1.3 times as much for each module or import
# on 8,192 modules as on 1,024, where the logarithm is 1.3 times as large. The script fails where a bound isn't kept.
set -eu
source "$(dirname "${BASH_SOURCE[0]}")/small_program.sh"

program=${1-}
if [ -z "$program" ]; then
  begin view_bench hmr_types core_model module_graph propagate prune_list
  mkdir -p "$own/proofs/runs/are_among"
  cat > "$own/src/main.rt" << 'END'
//! Does one thing to a view of so many modules, so many times over: `view_bench WHAT MODULES TIMES`, where WHAT is
//! a word of `runs`. Tells a number that shows what was done.
#![tactic(auto)]

mod pages;
mod runs;

use runs::done;
use std::env;
use std::process::ExitCode;

fn number(text: Option<String>) -> u32 {
    text.and_then(|word| word.parse().ok()).unwrap_or(0)
}

fn main(rt: HostRuntime) -> ExitCode {
    let alloc = rt.alloc();
    let out = rt.stdout();
    let Ok(mut words) = env::args(&rt) else {
        return ExitCode::from(2);
    };
    words.next();
    let Some(what) = words.next() else {
        return ExitCode::from(2);
    };
    let modules = number(words.next());
    let times = number(words.next());
    let Ok(told) = done(alloc, what.as_str(), modules, times) else {
        return ExitCode::from(9);
    };
    match println!(out; "{told}") {
        Ok(()) => ExitCode::from(0),
        Err(_) => ExitCode::from(5),
    }
}
END
  cat > "$own/src/pages.rt" << 'END'
// Pages of modules `/m0.js`, `/m1.js` and so on, of which the first is the root.
use hmr_types::{Analysis, ModName, Sequence};
use module_graph::View;
use std::alloc::{AllocError, Global};

/// What the modules of a page import, and which of them accepts itself.
#[derive(Clone, Copy, PartialEq, Eq)]
pub enum Shape {
    /// Module i imports the modules 4i + 1 to 4i + 4. The last accepts itself.
    Tree,
    /// Module i imports the modules i + 1 to i + 4. The root accepts itself.
    Mesh,
}

/// The name of the module of this number.
pub fn name(alloc: Global, number: u32) -> Result<ModName, AllocError> {
    let text = format!(in alloc; "/m{number}.js")?;
    ModName::read(alloc, text.as_bytes()).map_err(|_| AllocError)
}

/// The names of the modules from one number up to another.
pub fn names(alloc: Global, first: u32, end: u32) -> Result<Vec<ModName>, AllocError> {
    let mut names = Vec::new(alloc);
    for number in first..end {
        names.push(name(alloc, number)?)?;
    }
    Ok(names)
}

fn analysis(
    alloc: Global,
    shape: Shape,
    number: u32,
    modules: u32,
) -> Result<Analysis, AllocError> {
    let (before, accepting) = match shape {
        Shape::Tree => (number.saturating_mul(4), modules.saturating_sub(1)),
        Shape::Mesh => (number, 0),
    };
    let first = before.saturating_add(1);
    let imports = names(alloc, first, first.saturating_add(4).min(modules))?;
    Ok(Analysis {
        imports: Sequence::from_vec(imports),
        exports: Sequence::new(alloc),
        self_accepts: number == accepting,
        accepted: Sequence::new(alloc),
        declined: false,
    })
}

/// The view of a page of so many modules.
pub fn page(alloc: Global, shape: Shape, modules: u32) -> Result<View, AllocError> {
    let mut view = View::new(alloc);
    for number in 0..modules {
        let analysis = analysis(alloc, shape, number, modules)?;
        view.put(name(alloc, number)?, 1, analysis)?;
    }
    Ok(view)
}
END
  cat > "$own/src/runs.rt" << 'END'
// What is done: each word with what it stands for.
ghost use Rattle.std.specs.Prelude.{◌≡◌, Contains, IsTrue, true};
ghost use Rattle.core_model.specs.Names.{Name, has};
ghost use Rattle.core_model.specs.Spread.{AreIn};

use crate::pages::{Shape, names, page};
use hmr_types::ModName;
use module_graph::{View, has_name};
use propagate::spread;
use prune_list::unreached;
use std::alloc::{AllocError, Global};

/// Does what the word says, and tells a number of it:
///
/// - `ask`: the last module of a tree changes, so many times; how many modules are replaced;
/// - `rise`: the last module of a mesh changes, so many times, and the change goes up to the root; how many
///   modules are replaced;
/// - `build`: the view of a tree is made, so many times;
/// - `drop`: so many of the last modules of a mesh leave at once; 1 where the root is
///   left;
/// - `keep`: the same page and the same list of names, and none leaves; 1 where the root is left;
/// - `prune`: what the root of a tree doesn't reach is looked for, so many times; how many names that are.
pub fn done(alloc: Global, what: &str, modules: u32, times: u32) -> Result<usize, AllocError> {
    match what {
        "ask" => asked(alloc, Shape::Tree, modules, times),
        "rise" => asked(alloc, Shape::Mesh, modules, times),
        "build" => built(alloc, modules, times),
        "drop" => left(alloc, modules, times, true),
        "keep" => left(alloc, modules, times, false),
        "prune" => pruned(alloc, modules, times),
        _ => Err(AllocError),
    }
}

fn asked(alloc: Global, shape: Shape, modules: u32, times: u32) -> Result<usize, AllocError> {
    let view = page(alloc, shape, modules)?;
    let roots = names(alloc, 0, 1)?;
    let changed = names(alloc, modules.saturating_sub(1), modules)?;
    let listed = view.names(alloc)?;
    if !are_among(&listed, &changed) {
        return Err(AllocError);
    }
    let mut replaced = 0;
    for _ in 0..times {
        replaced = replaced_by(alloc, &view, &roots, &changed)?;
    }
    Ok(replaced)
}

fn are_among(listed: &[ModName], names: &[ModName]) -> bool
    ensures { IsTrue result → (n : Name) → Contains names.now n → has listed.now n ≡ true }
{
    for name in names {
        if !has_name(listed, name) {
            return false;
        }
    }
    true
}

fn replaced_by(
    alloc: Global,
    view: &View,
    roots: &[ModName],
    changed: &[ModName],
) -> Result<usize, AllocError>
    requires { AreIn changed.now view.now }
{
    let spread = spread(alloc, view, roots, changed, &[])?;
    Ok(spread.replaced.as_slice().len())
}

fn built(alloc: Global, modules: u32, times: u32) -> Result<usize, AllocError> {
    for _ in 0..times {
        page(alloc, Shape::Tree, modules)?;
    }
    Ok(0)
}

fn left(alloc: Global, modules: u32, names_count: u32, drops: bool) -> Result<usize, AllocError> {
    let mut view = page(alloc, Shape::Mesh, modules)?;
    let last = names(alloc, modules.saturating_sub(names_count), modules)?;
    if drops {
        view.drop_names(&last);
    }
    match view.at(0) {
        Some(_) => Ok(1),
        None => Ok(0),
    }
}

fn pruned(alloc: Global, modules: u32, times: u32) -> Result<usize, AllocError> {
    let view = page(alloc, Shape::Tree, modules)?;
    let roots = names(alloc, 0, 1)?;
    let mut left = 0;
    for _ in 0..times {
        left = unreached(alloc, &view, &roots)?.len();
    }
    Ok(left)
}
END
  cat > "$own/proofs/Lib.antt" << 'END'
mod Listing
END
  cat > "$own/proofs/Listing.antt" << 'END'
-- Names that are met one by one and are all listed.
use Rattle.std.proofs.Common.{◌≡◌, ◌⊎◌, inl, inr, ℕ, ◌+◌, ◌<◌, true, List, length, take, get_or, ◌∙◌, Contains}
use Rattle.std.proofs.Math.Path.{subst}
use Rattle.std.proofs.lemmas.List.{take_more}
use Rattle.std.proofs.lemmas.List.Elements.{Contains-push_cases}
use Rattle.core_model.specs.Names.{Name, has}

-- a name further, all that were met so far are listed
pub among_more : (listed names : List Name) (i : ℕ) (x : Name) → i < length names → x ≡ get_or names i x → ((n : Name) → Contains (take i names) n → has listed n ≡ true) → has listed x ≡ true → (n : Name) → Contains (take (i + 1) names) n → has listed n ≡ true
among_more listed names i x h is f t n c = either (Contains-push_cases (take i names) (get_or names i x) n (subst (λ l. Contains l n) (take_more names i x h) c))
  where
    either : Contains (take i names) n ⊎ (get_or names i x ≡ n) → has listed n ≡ true
    either (inl k) = f n k
    either (inr e) = subst (λ m. has listed m ≡ true) (is ∙ e) t
END
  cat > "$own/proofs/runs/are_among/Invariants.antt" << 'END'
use Rattle.std.proofs.Common.{◌≡◌, true, take, Contains}
use Rattle.core_model.specs.Names.{Name, has}
use Rattle.view_bench.proofs.runs.are_among.Given as goal

-- all names so far are listed
abbrev pub invariant-loop-name : goal.invariant-loop-name
invariant-loop-name l = (n : Name) → Contains (take l.name-index l.names) n → has l.listed n ≡ true
END
  cat > "$own/proofs/runs/are_among/Answers.antt" << 'END'
use Rattle.std.proofs.Common.{sym, ◌∙◌}
use Rattle.view_bench.proofs.Listing.{among_more}
use Rattle.view_bench.proofs.runs.are_among.Goals as goal

pub loop-name-preserved : goal.loop-name-preserved
loop-name-preserved c = among_more c.args.listed.now c.args.names.now c.loop-name.name-index c.name-item.result c.loop-name-test.true c.name-item.is c.loop-name.invariant (sym c.has_name.ensures ∙ c.if-not-has_name.false)
END
  build build 1 1
fi
[ -x "$program" ] || { echo "no program at $program" >&2; exit 1; }
command -v valgrind > /dev/null || { echo 'bench: valgrind is not installed' >&2; exit 1; }

python3 - "$program" "$work" << 'END'
import functools, os, re, subprocess, sys

program, work = sys.argv[1:]
failed = []


@functools.lru_cache(maxsize=None)
def counted(what, modules, times):
    """The instructions of a run, and the number that it tells."""
    words = ["valgrind", "--tool=callgrind", f"--callgrind-out-file={work}/calls", program, what, str(modules), str(times)]
    ran = subprocess.run(words, capture_output=True, text=True)
    if ran.returncode:
        sys.exit(f"{' '.join(words[3:])}: status {ran.returncode}\n{ran.stderr}")
    return int(re.search(r"Collected : (\d+)", ran.stderr)[1]), int(ran.stdout)


def of_one(what, modules, more, fewer):
    """The instructions of one time, by a run with more times and one with fewer."""
    return (counted(what, modules, more)[0] - counted(what, modules, fewer)[0]) / (more - fewer)


def ratio(label, least, most, bound):
    kept = most <= least * bound
    if not kept:
        failed.append(label)
    print(f"{label}: {most / least:.2f} times, at most {bound} {'as wanted' if kept else 'NOT KEPT'}", flush=True)


def tell(label, modules, each, told=""):
    print(f"{label} {modules:>6} modules {each:>14,.0f} instructions{told}", flush=True)


asks = {}
for modules in (400, 4096):
    asks[modules] = of_one("ask", modules, 2000, 1000)
    tell("ask  ", modules, asks[modules], f", {counted('ask', modules, 1000)[1]} replaced")
ratio("an ask on 4,096 modules, by one on 400", asks[400], asks[4096], 1.3)

SIZES = (1024, 2048, 4096, 8192)
for what, unit, units in (
    ("rise", "import", lambda modules: 4 * modules - 10),
    ("build", "module", lambda modules: modules),
    ("prune", "module", lambda modules: modules),
):
    each = {}
    for modules in SIZES:
        cost = of_one(what, modules, 2, 1)
        each[modules] = cost / units(modules)
        tell(f"{what:5}", modules, cost, f", {each[modules]:,.0f} for each {unit}, {counted(what, modules, 2)[1]} told")
    ratio(f"{what} for each {unit} on 8,192, by that on 1,024", each[1024], each[8192], 1.3)


def dropping(modules, names):
    """The instructions of dropping so many names, without the page and without the list of the names."""
    return counted("drop", modules, names)[0] - counted("keep", modules, names)[0]


walks, names = {}, {}
for modules in SIZES:
    walks[modules] = dropping(modules, 0)
    names[modules] = (dropping(modules, modules // 2) - walks[modules]) / (modules // 2)
    few = (dropping(modules, 512) - walks[modules]) / 512
    tell("drop ", modules, walks[modules], f" for none, {walks[modules] / modules:.1f} for each module; more for each name: {names[modules]:,.0f} of half of them, {few:,.0f} of 512")
ratio("the walk for each module on 8,192, by that on 1,024", walks[1024] / 1024, walks[8192] / 8192, 1.3)
ratio("a dropped name of half of 8,192, by one of half of 1,024", names[1024], names[8192], 1.3)
if failed:
    sys.exit("bench: not kept: " + "; ".join(failed))
END
