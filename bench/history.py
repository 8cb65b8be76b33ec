#!/usr/bin/env python3
"""Measures how many edits a second sessions commit to one history, by the number of threads.

It copies the crates to a temporary folder, adds a program that opens a hub and has each session commit in a thread of
its own, has `rt run` prove and build it (some minutes), and runs it with 1, 2, 4 and 8 sessions. Each commit adds an
argument to a framework of three arguments, or drops it again. Opening and closing are not measured.

usage: bench/history.py [--runs K] [--commits N] [--program FILE] [--keep FILE]
"""
import argparse
import shutil
import statistics
import subprocess
import sys
import tempfile
import time
from pathlib import Path

TOP = Path(__file__).resolve().parent.parent
THREADS = (1, 2, 4, 8)

# It stands here, and not in a file of its own, since `rt ci` refuses a source outside the crates.
PROGRAM = """\
//! For each line of two numbers, sessions and edits: opens a hub, prints `open`, has each session commit so many edits
//! in a thread of its own, prints `done`, and closes the hub and prints how many entries there are.
#![tactic(auto)]

ghost use Rattle.std.specs.Prelude.{◌≡◌, ◌<◌, All, map};
ghost use Rattle.std.specs.Thread.{IsSync};
ghost use Rattle.turn_lock.specs.Seats.{number_of};
ghost use Rattle.edit_history.specs.Hubs.{IsSeatAt};

use dung_notions::AfPlain;
use edit_history::{Hub, Seat};
use edit_rules::{Edit, Framework};
use lists::Memory;
use std::alloc::Global;
use std::io;
use std::sync::Wait;
use std::thread::{Threads, join_mut};

/// Commits so many edits: adds the session's argument and drops it again.
fn commit_often<R: Wait>(rt: &R, alloc: Global, hub: &Hub, seat: &mut Seat, times: u32)
    requires { IsSeatAt hub.now seat.old }
    ensures { IsSeatAt hub.now seat.new × (number_of seat.new ≡ number_of seat.old) }
{
    let argument = seat.number().saturating_add(3);
    for turn in 0..times {
        let edit = if turn % 2 == 0 {
            Edit::ArgAdd(argument)
        } else {
            Edit::ArgDrop(argument)
        };
        let _told = hub.commit(rt, alloc, seat, edit);
    }
}

/// Each session commits in a thread of its own.
fn commit_all<R: Threads + Wait + Sync>(
    rt: &R,
    alloc: Global,
    hub: &Hub,
    seats: &mut [Seat],
    times: u32,
)
    requires { All (IsSeatAt hub.now) seats.old }
    ensures { All (IsSeatAt hub.now) seats.new × (map number_of seats.new ≡ map number_of seats.old) }
{
    if let Some((first, rest)) = seats.split_first_mut() {
        join_mut(
            rt,
            &mut ||
                requires { IsSeatAt hub.now first.now }
                ensures { IsSeatAt hub.entry.now first.exit.now
                    × (number_of first.exit.now ≡ number_of first.entry.now) }
            { commit_often(rt, alloc, hub, first, times) },
            &mut ||
                requires sync { IsSync R.row }
                requires seats { All (IsSeatAt hub.now) rest.now }
                ensures { All (IsSeatAt hub.entry.now) rest.exit.now
                    × (map number_of rest.exit.now ≡ map number_of rest.entry.now) }
            { commit_all(rt, alloc, hub, rest, times) },
        );
    }
}

/// Three arguments without attacks.
fn three(alloc: Global) -> Result<Framework, Memory> {
    let plain = AfPlain::of_lists(alloc, &[1, 2, 3], &[])?;
    Ok(Framework::Af(plain))
}

/// One line's run, where memory serves.
fn run_line<R: Threads + Wait + Sync + Print>(
    rt: &R,
    alloc: Global,
    sessions: u32,
    times: u32,
) -> io::Result<()>
    requires { 0 < sessions }
{
    let Ok(framework) = three(alloc) else {
        return Ok(());
    };
    let Ok((hub, mut seats)) = Hub::open(rt, alloc, framework, u64::MAX, sessions) else {
        return Ok(());
    };
    println!(rt; "open")?;
    commit_all(rt, alloc, &hub, seats.as_mut_slice(), times);
    println!(rt; "done")?;
    let history = hub.close(seats);
    println!(rt; "{}", history.entries.len())
}

/// The two numbers of a line.
fn two_numbers(line: &str) -> Option<(u32, u32)> {
    let (sessions, times) = line.split_once(' ')?;
    Some((
        sessions.parse::<u32>().ok()?,
        times.parse::<u32>().ok()?,
    ))
}

fn main(rt: HostRuntime) -> io::Result<()> {
    for line in rt.lines(rt.alloc()) {
        let line = line?;
        if let Some((sessions, times)) = two_numbers(line.as_str()) {
            if sessions > 0 {
                run_line(&rt, rt.alloc(), sessions, times)?;
            }
        }
    }
    Ok(())
}
"""

# What is written of the proofs: files below the crate's proofs/.
PROOFS = {
    "proofs/Lib.antt": """\
mod FirstLemmas
""",
    "proofs/FirstLemmas.antt": """\
-- What holds of each of some items, of which the first is lent.
use Rattle.std.proofs.Common.{arith, ◌≡◌, ℕ, zero, suc, List, ◌∷◌, map, sym, ap, subst, ◌∙◌}
use Rattle.std.specs.Prelude.{All}

module _ {X : Type 0} (P : X → Type 0) where
  pub first_of : (xs : List X) (x : X) (rest : List X) → All P xs → xs ≡ x ∷ rest → P x
  first_of xs x rest all is = let each : All P (x ∷ rest) = subst (All P) is all in each 0 x (omega arith)

  pub rest_of : (xs : List X) (x : X) (rest : List X) → All P xs → xs ≡ x ∷ rest → All P rest
  rest_of xs x rest all is =
      let each : All P (x ∷ rest) = subst (All P) is all in λ k d low. each (suc k) d (omega arith)

  each_of : (x : X) (rest : List X) → P x → All P rest → All P (x ∷ rest)
  each_of x rest here more zero d low = here
  each_of x rest here more (suc k) d low = more k d (omega arith)

  -- each still has it, and their numbers are the same
  pub kept : (f : X → ℕ) (xs : List X) (x y : X) (rest more : List X) → xs ≡ x ∷ rest → P y × (f y ≡ f x)
      → All P more × (map f more ≡ map f rest) → All P (y ∷ more) × (map f (y ∷ more) ≡ map f xs)
  kept f xs x y rest more is here others = (
    each_of y more here.0 others.0,
    ap (λ n. n ∷ map f more) here.1 ∙ ap (λ l. f x ∷ l) others.1 ∙ ap (map f) (sym is),
  )
""",
    "proofs/commit_often/Invariants.antt": """\
use Rattle.std.proofs.Common.{◌≡◌}
use Rattle.turn_lock.specs.Seats.{number_of}
use Rattle.edit_history.specs.Hubs.{IsSeatAt}
use Rattle.history_bench.proofs.commit_often.Given as goal

abbrev pub invariant-loop-turn : goal.invariant-loop-turn
invariant-loop-turn g l = IsSeatAt l.hub l.seat × (number_of l.seat ≡ number_of l.initial.seat)
""",
    "proofs/+commit_all+fn-commit_all-join_mut+arg3/Invariants.antt": """\
use Rattle.std.proofs.Common.{◌+◌, ◌*◌, length}
use Rattle.history_bench.proofs.+commit_all+fn-commit_all-join_mut+arg3.Given as goal

abbrev pub decreases-join_mut+arg3 : goal.decreases-join_mut+arg3
decreases-join_mut+arg3 g l = 2 * length l.rest.now + 1

abbrev pub decreases-commit_all : goal.decreases-commit_all
decreases-commit_all g l = 2 * length l.seats.now
""",
    "proofs/+commit_all+fn-commit_all-join_mut+arg3/Answers.antt": """\
use Rattle.std.proofs.Common.{rules}
use Rattle.edit_history.specs.Hubs.{IsSeatAt}
use Rattle.history_bench.proofs.FirstLemmas.{first_of, rest_of}
use Rattle.history_bench.proofs.+commit_all+fn-commit_all-join_mut+arg3.Goals as goal

pub join_mut-requires-after_bounds : goal.join_mut-requires-after_bounds
join_mut-requires-after_bounds g t c κs within =
    let is = c.in-Some.ensures.cases.0 in
    let seats = c.args.seats.now in
    let first = first_of (λ s. IsSeatAt c.args.hub.now s) seats c.in-Some.first.now c.in-Some.rest.now c.requires is in
    let rest = rest_of (λ s. IsSeatAt c.args.hub.now s) seats c.in-Some.first.now c.in-Some.rest.now c.requires is in
    (first, (search rules, ((λ a m. m), (search rules, (rest, search rules)))))
""",
}


def needed():
    """The crates that the program stands on, as lines of crates.txt, lowest first."""
    lines = [line for line in (TOP / "crates.txt").read_text(encoding="utf-8").splitlines()
             if line and not line.startswith("#")]
    below = {line.split(":")[0]: line.split(":")[1].split() for line in lines}
    wanted, left = set(), ["edit_history"]
    while left:
        name = left.pop()
        if name in below and name not in wanted:
            wanted.add(name)
            left += below[name]
    return [line for line in lines if line.split(":")[0] in wanted]


def built(folder):
    """The program, proved and built over a copy of the crates."""
    lines = needed()
    for line in lines:
        name = line.split(":")[0]
        shutil.copytree(TOP / "crates" / name, folder / "crates" / name,
                        ignore=shutil.ignore_patterns("out", "must-fail"))
    lines.append("history_bench: lists dung_notions edit_rules turn_lock edit_history")
    (folder / "crates.txt").write_text("\n".join(lines) + "\n", encoding="utf-8")
    shutil.copy(TOP / "HANDLES", folder / "HANDLES")
    crate = folder / "crates" / "history_bench"
    for name, text in {"src/main.rt": PROGRAM, "stdin": "2 3\n", "stdout": "open\ndone\n6\n", **PROOFS}.items():
        (crate / name).parent.mkdir(parents=True, exist_ok=True)
        (crate / name).write_text(text, encoding="utf-8")
    done = subprocess.run(["rt", "run"], cwd=crate, stdout=subprocess.PIPE, stderr=subprocess.STDOUT, text=True,
                          stdin=open(crate / "stdin", encoding="utf-8"))
    program = crate / "out" / "history_bench"
    if done.returncode != 0 or not program.exists():
        sys.exit("bench: the program isn't built:\n" + "\n".join(done.stdout.splitlines()[-40:]))
    return program


def seconds(program, sessions, commits):
    """The seconds in which the sessions made so many commits together."""
    child = subprocess.Popen([str(program)], stdin=subprocess.PIPE, stdout=subprocess.PIPE, text=True)
    child.stdin.write(f"{sessions} {commits // sessions}\n")
    child.stdin.close()
    child.stdout.readline()
    begin = time.perf_counter()
    child.stdout.readline()
    taken = time.perf_counter() - begin
    entries = int(child.stdout.readline())
    child.wait()
    if entries != commits // sessions * sessions:
        sys.exit(f"bench: {entries} entries where {commits} were committed")
    return taken


def main():
    words = argparse.ArgumentParser(description=__doc__.splitlines()[0])
    words.add_argument("--runs", type=int, default=5)
    words.add_argument("--commits", type=int, default=80_000)
    words.add_argument("--program", help="a program that was built before")
    words.add_argument("--keep", help="where to keep the program that is built")
    asked = words.parse_args()
    with tempfile.TemporaryDirectory() as name:
        program = Path(asked.program) if asked.program else built(Path(name))
        if asked.keep:
            shutil.copy(program, asked.keep)
        for sessions in THREADS:
            rates = sorted(asked.commits / seconds(program, sessions, asked.commits) for _ in range(asked.runs))
            print(f"{sessions} threads: {statistics.median(rates):,.0f} commits a second "
                  f"({rates[0]:,.0f} to {rates[-1]:,.0f})", flush=True)


if __name__ == "__main__":
    main()
