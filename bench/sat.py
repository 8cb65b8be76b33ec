#!/usr/bin/env python3
"""Measures the solver: seconds of the processor, conflicts, and literals propagated a second.

It copies the crates to a temporary folder, adds a program that reads clauses in DIMACS form and searches, has `rt run`
prove and build it (some minutes), and runs it on random clauses of three literals near the threshold (4.26 clauses a
variable), on pigeon holes, and on a large satisfiable instance of short clauses. Where `minisat` is on the path it runs
beside, and the answers are compared. Every model is tried on the clauses here.

usage: bench/sat.py [--runs K] [--program FILE] [--keep FILE]
"""
import argparse
import os
import random
import re
import shutil
import subprocess
import sys
import tempfile
from pathlib import Path

TOP = Path(__file__).resolve().parent.parent
NEEDED = ("lists", "plain_lits", "hinted_log", "clause_watches", "unit_propagate", "decision_order",
          "conflict_learn", "sat_core")

# It stands here, and not in a file of its own, since `rt ci` refuses a source outside the crates.
PROGRAM = """\
//! Reads clauses in DIMACS form, searches for a model, and prints what it found, how many conflicts there were, how
//! many literals were made true, and the model.
#![tactic(auto)]

use hinted_log::LogFault;
use lists::{Items, Memory};
use plain_lits::{Budget, Clause, Halt, Lit};
use sat_core::{Added, Solved, Solver};
use std::alloc::Global;
use std::io;

/// The literals of a line. What is no number is passed over, and so is a line that begins with `p` or `c`.
fn read_lits(alloc: Global, line: &str) -> Result<Vec<Lit>, Memory> {
    let mut lits = Vec::new(alloc);
    for word in line.split(' ') {
        if let Ok(number) = word.parse::<i32>() {
            if number != 0 {
                lits.push(Lit {
                    var: (number.unsigned_abs() as usize).saturating_sub(1),
                    positive: number > 0,
                })?;
            }
        }
    }
    Ok(lits)
}

/// Adds a clause, whose variables are worth deciding.
fn add_clause(solver: &mut Solver, alloc: Global, lits: &[Lit]) -> Result<(), LogFault> {
    for lit in lits {
        solver.declare(Lit {
            var: lit.var,
            positive: false,
        })?;
    }
    let clause = Clause::from_slice(alloc, lits)?;
    solver.add(clause, Added::Axiom)?;
    Ok(())
}

/// Adds the clause of a line.
fn add_line(solver: &mut Solver, alloc: Global, line: &str) -> Result<(), LogFault> {
    if line.starts_with('p') || line.starts_with('c') {
        return Ok(());
    }
    let lits = read_lits(alloc, line)?;
    add_clause(solver, alloc, lits.as_slice())
}

/// What a search found: whether there is a model, the numbers of conflicts and literals, and the model.
#[derive(Drop)]
struct Outcome {
    satisfiable: bool,
    conflicts: u64,
    literals: u64,
    model: Items<Lit>,
}

/// Searches under no assumption.
fn solve_free(solver: &mut Solver, budget: &mut Budget) -> Result<Solved, Halt> {
    solver.solve(&[], budget)
}

/// Searches, with no end to its budget; none where memory ends.
fn found(solver: &mut Solver, alloc: Global) -> Option<Outcome> {
    let mut budget = Budget::new(u64::MAX);
    let told = solve_free(solver, &mut budget).ok()?;
    let literals = solver.propagated();
    let conflicts = budget.used();
    match told {
        Solved::Model(model) => Some(Outcome {
            satisfiable: true,
            conflicts,
            literals,
            model,
        }),
        Solved::Core(_) => Some(Outcome {
            satisfiable: false,
            conflicts,
            literals,
            model: Items::new(alloc),
        }),
    }
}

/// Prints a literal.
fn print_lit(rt: &impl Print, lit: Lit) -> io::Result<()> {
    let number = lit.var.saturating_add(1);
    if lit.positive {
        return println!(rt; "{number}");
    }
    println!(rt; "-{number}")
}

/// Prints what was found.
fn print_outcome(rt: &impl Print, outcome: &Outcome) -> io::Result<()> {
    let conflicts = outcome.conflicts;
    let literals = outcome.literals;
    if outcome.satisfiable {
        println!(rt; "SATISFIABLE {conflicts} {literals}")?;
    } else {
        println!(rt; "UNSATISFIABLE {conflicts} {literals}")?;
    }
    for lit in outcome.model.as_slice() {
        print_lit(rt, *lit)?;
    }
    Ok(())
}

/// Reads the clauses.
fn read_clauses(rt: &(impl Input + Print + AllocGlobal), solver: &mut Solver) -> io::Result<()> {
    for line in rt.lines(rt.alloc()) {
        let line = line?;
        if add_line(solver, rt.alloc(), line.as_str()).is_err() {
            return Ok(());
        }
    }
    println!(rt; "read")
}

fn main(rt: HostRuntime) -> io::Result<()> {
    if let Ok(mut solver) = Solver::open(rt.alloc(), 50_000_000) {
        read_clauses(&rt, &mut solver)?;
        if let Some(outcome) = found(&mut solver, rt.alloc()) {
            print_outcome(&rt, &outcome)?;
        }
    }
    Ok(())
}
"""

ANSWERS = """\
use Rattle.sat_core.proofs.Searching.{plain_none}
use Rattle.sat_bench.proofs.solve_free.Goals as goal

pub solve-requires : goal.solve-requires
solve-requires c = plain_none
"""


def scattered(variables, clauses, seed):
    """Random clauses of three different variables."""
    draw = random.Random(seed)
    return variables, [[v if draw.random() < 0.5 else -v for v in draw.sample(range(1, variables + 1), 3)]
                       for _ in range(clauses)]


def pigeons(holes):
    """One pigeon more than holes, each in a hole, and no two in one."""
    def at(pigeon, hole):
        return pigeon * holes + hole + 1
    clauses = [[at(p, h) for h in range(holes)] for p in range(holes + 1)]
    clauses += [[-at(p, h), -at(q, h)] for h in range(holes) for p in range(holes + 1) for q in range(p)]
    return (holes + 1) * holes, clauses


def planted(variables, clauses, seed):
    """Random clauses of two or three literals, of which each has a true one under a hidden assignment."""
    draw = random.Random(seed)
    hidden = [draw.random() < 0.5 for _ in range(variables + 1)]
    found = []
    while len(found) < clauses:
        chosen = draw.sample(range(1, variables + 1), draw.choice((2, 3, 3)))
        clause = [v if draw.random() < 0.5 else -v for v in chosen]
        if any((lit > 0) == hidden[abs(lit)] for lit in clause):
            found.append(clause)
    return variables, found


def instances():
    for variables in (150, 200, 250):
        for seed in (1, 2, 3):
            yield f"random {variables}, seed {seed}", scattered(variables, round(4.26 * variables), seed)
    for holes in (7, 8):
        yield f"{holes + 1} pigeons, {holes} holes", pigeons(holes)
    yield "planted 100000 variables, 300000 clauses", planted(100_000, 300_000, 1)


def built(folder):
    """The program, proved and built over a copy of the crates."""
    for name in NEEDED:
        shutil.copytree(TOP / "crates" / name, folder / "crates" / name,
                        ignore=shutil.ignore_patterns("out", "must-fail"))
    wanted = [line for line in (TOP / "crates.txt").read_text(encoding="utf-8").splitlines()
              if line.split(":")[0] in NEEDED]
    wanted.append("sat_bench: lists plain_lits hinted_log sat_core")
    (folder / "crates.txt").write_text("\n".join(wanted) + "\n", encoding="utf-8")
    shutil.copy(TOP / "HANDLES", folder / "HANDLES")
    crate = folder / "crates" / "sat_bench"
    (crate / "src").mkdir(parents=True)
    (crate / "src" / "main.rt").write_text(PROGRAM, encoding="utf-8")
    (crate / "proofs" / "solve_free").mkdir(parents=True)
    (crate / "proofs" / "solve_free" / "Answers.antt").write_text(ANSWERS, encoding="utf-8")
    (crate / "stdin").write_text("1 0\n", encoding="utf-8")
    (crate / "stdout").write_text("read\nSATISFIABLE 0 1\n1\n", encoding="utf-8")
    done = subprocess.run(["rt", "run"], cwd=crate, stdout=subprocess.PIPE, stderr=subprocess.STDOUT, text=True,
                          stdin=open(crate / "stdin", encoding="utf-8"))
    program = crate / "out" / "sat_bench"
    if done.returncode != 0 or not program.exists():
        sys.exit("bench: the solver isn't built:\n" + "\n".join(done.stdout.splitlines()[-8:]))
    return program


def processor_seconds(pid):
    """How many seconds a process has had a processor, so that other work beside it counts for little."""
    with open(f"/proc/{pid}/schedstat", encoding="ascii") as file:
        return int(file.read().split()[0]) / 1e9


def told(program, text):
    """What the program found, its conflicts and literals, the processor's seconds of the search, and the model."""
    with open(text, encoding="ascii") as file:
        child = subprocess.Popen([str(program)], stdin=file, stdout=subprocess.PIPE, text=True)
        child.stdout.readline()
        begin = processor_seconds(child.pid)
        found = child.stdout.readline().split()
        seconds = max(processor_seconds(child.pid) - begin, 1e-4)
        rest = child.stdout.read().split()
    child.wait()
    return found[0], [int(n) for n in found[1:]], seconds, {int(n) for n in rest}


def beside(text):
    """What MiniSat found, its conflicts and propagations, and its seconds."""
    out = subprocess.run(["minisat", "-no-pre", text], stdout=subprocess.PIPE, text=True).stdout
    return (out.split()[-1], int(re.search(r"conflicts\s*:\s*(\d+)", out).group(1)),
            int(re.search(r"propagations\s*:\s*(\d+)", out).group(1)),
            float(re.search(r"CPU time\s*:\s*([0-9.]+)", out).group(1)))


def main():
    words = argparse.ArgumentParser(description=__doc__.splitlines()[0])
    words.add_argument("--runs", type=int, default=1)
    words.add_argument("--program", help="a program that was built before")
    words.add_argument("--keep", help="where to keep the program that is built")
    asked = words.parse_args()
    wrong = 0
    with tempfile.TemporaryDirectory() as name:
        folder = Path(name)
        program = Path(asked.program) if asked.program else built(folder)
        if asked.keep:
            shutil.copy(program, asked.keep)
        text = f"{folder}/clauses.cnf"
        for title, (variables, clauses) in instances():
            with open(text, "w", encoding="ascii") as file:
                file.write(f"p cnf {variables} {len(clauses)}\n")
                file.writelines(" ".join(map(str, clause)) + " 0\n" for clause in clauses)
            for _ in range(asked.runs):
                found, (conflicts, literals), seconds, model = told(program, text)
                right = found != "SATISFIABLE" or all(any(lit in model for lit in clause) for clause in clauses)
                line = (f"{title}: {found}, {seconds:.3f} s, {conflicts} conflicts, "
                        f"{literals / 1e6:.2f} million literals, {literals / seconds / 1e6:.2f} million a second")
                if shutil.which("minisat"):
                    other = beside(text)
                    right = right and other[0] == found
                    line += (f"; minisat {other[3]:.3f} s, {other[1]} conflicts, "
                             f"{other[2] / max(other[3], 1e-3) / 1e6:.2f} million a second")
                wrong += not right
                print(line + ("" if right else ", WRONG"), flush=True)
        if not shutil.which("minisat"):
            print("minisat isn't on the path, so nothing was compared with it")
    sys.exit(1 if wrong else 0)


if __name__ == "__main__":
    main()
