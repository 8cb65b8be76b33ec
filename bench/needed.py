#!/usr/bin/env python3
"""Measures the encoding of a large framework: the axioms that 1,000,000 arguments and 3,000,000 attacks need.

It copies the crates to a temporary folder, adds a program that makes a framework of pseudo-random attacks, takes the
axioms that it needs, and makes literals that a model would have and decodes them; has `rt run` prove and build it (some
minutes), runs it, and prints the seconds of each part and the peak memory. The number of axioms is compared with three,
and eight for each argument and five for each attack, counted here.

usage: bench/needed.py [--runs K] [--program FILE] [--keep FILE]
"""
import argparse
import os
import shutil
import subprocess
import sys
import tempfile
from pathlib import Path

TOP = Path(__file__).resolve().parent.parent
ARGUMENTS = 1_000_000
ATTACKS = 3_000_000

NEEDED = ("lists", "num_text", "semantics", "set_lists", "meaning_atoms", "attack_index", "dung_notions",
          "iccma_tasks", "af_axioms", "plain_lits", "certificate_claims", "oracle_face", "af_encoding")

# It stands here, and not in a file of its own, since `rt ci` refuses a source outside the crates.
PROGRAM = """\
//! Makes a framework of pseudo-random attacks, takes the axioms that it needs, and decodes literals; prints how many
//! arguments, attacks, axioms and members there are, and the milliseconds of both.
#![tactic(auto)]

use af_encoding::{decode, needed};
use dung_notions::AfPlain;
use meaning_atoms::{Atom, AtomLit};
use lists::Memory;
use std::alloc::Global;
use std::io;
use std::rt::Clock;
use std::time::Instant;

/// The numbers from 1 to `count`.
fn numbers(alloc: Global, count: u32) -> Result<Vec<u32>, Memory> {
    let mut found = Vec::new(alloc);
    for number in 0..count {
        found.push(number.saturating_add(1))?;
    }
    Ok(found)
}

/// A number from 1 to `count`, by the upper half of the state.
fn drawn(state: u64, count: u64) -> u32 {
    if count == 0 {
        return 0;
    }
    u32::try_from(((state >> 32) % count).saturating_add(1)).unwrap_or(0)
}

/// So many attacks, by a linear congruence.
fn attacks(alloc: Global, arguments: u32, count: u32) -> Result<Vec<(u32, u32)>, Memory> {
    let mut found = Vec::new(alloc);
    let mut state = 1u64;
    for _ in 0..count {
        let first = state.wrapping_mul(6364136223846793005).wrapping_add(1442695040888963407);
        state = first.wrapping_mul(6364136223846793005).wrapping_add(1442695040888963407);
        found.push((drawn(first, u64::from(arguments)), drawn(state, u64::from(arguments))))?;
    }
    Ok(found)
}

/// Literals that say of each number that it is live, and of each second one that it is a member.
fn values(alloc: Global, numbers: &[u32]) -> Result<Vec<AtomLit>, Memory> {
    let mut found = Vec::new(alloc);
    for number in numbers {
        found.push(AtomLit {
            atom: Atom::Member(*number),
            positive: *number % 2 == 0,
        })?;
        found.push(AtomLit {
            atom: Atom::Live(*number),
            positive: true,
        })?;
    }
    Ok(found)
}

/// The framework, and literals about it.
fn made(alloc: Global, arguments: u32, count: u32) -> Result<(AfPlain, Vec<AtomLit>), Memory> {
    let numbers = numbers(alloc, arguments)?;
    let plain = AfPlain::of_lists(alloc, &numbers, &attacks(alloc, arguments, count)?)?;
    let values = values(alloc, &numbers)?;
    Ok((plain, values))
}

/// Takes the axioms, decodes the literals, and prints how long each took.
fn measure(rt: &(impl Clock + Print), alloc: Global, plain: &AfPlain, values: &[AtomLit]) -> io::Result<()> {
    let begin = Instant::now(rt)?;
    let Ok(names) = needed(alloc, plain) else {
        return Ok(());
    };
    let taken = begin.elapsed(rt)?.as_millis();
    let again = Instant::now(rt)?;
    let Ok(set) = decode(alloc, values) else {
        return Ok(());
    };
    let read = again.elapsed(rt)?.as_millis();
    let live = plain.live().len();
    let attacks = plain.attack_count();
    let axioms = names.len();
    let members = set.len();
    println!(rt; "{live} {attacks} {axioms} {members} {taken} {read}")
}

/// The two numbers of a line.
fn two_numbers(line: &str) -> Option<(u32, u32)> {
    let (first, second) = line.split_once(' ')?;
    Some((first.parse::<u32>().ok()?, second.parse::<u32>().ok()?))
}

fn main(rt: HostRuntime) -> io::Result<()> {
    for line in rt.lines(rt.alloc()) {
        let line = line?;
        let Some((arguments, count)) = two_numbers(line.as_str()) else {
            return Ok(());
        };
        if let Ok((plain, values)) = made(rt.alloc(), arguments, count) {
            measure(&rt, rt.alloc(), &plain, &values)?;
        }
    }
    Ok(())
}
"""

# Runs a program with its input from a file, prints what it wrote and then its peak memory in KB. It is a process of its
# own: a child's peak begins with that of the process that started it, which here has to be a small one.
MEASURE = """
import os, sys
child = os.posix_spawn(sys.argv[2], sys.argv[2:], os.environ, file_actions=[
    (os.POSIX_SPAWN_OPEN, 0, sys.argv[1], os.O_RDONLY, 0)])
_, status, used = os.wait4(child, 0)
print(used.ru_maxrss, os.waitstatus_to_exitcode(status))
"""


def built(folder):
    """The program, proved and built over a copy of the crates."""
    for name in NEEDED:
        shutil.copytree(TOP / "crates" / name, folder / "crates" / name,
                        ignore=shutil.ignore_patterns("out", "must-fail"))
    wanted = [line for line in (TOP / "crates.txt").read_text(encoding="utf-8").splitlines()
              if line.split(":")[0] in NEEDED]
    wanted.append("needed_bench: lists set_lists meaning_atoms dung_notions af_encoding")
    (folder / "crates.txt").write_text("\n".join(wanted) + "\n", encoding="utf-8")
    shutil.copy(TOP / "HANDLES", folder / "HANDLES")
    crate = folder / "crates" / "needed_bench"
    (crate / "src").mkdir(parents=True)
    (crate / "src" / "main.rt").write_text(PROGRAM, encoding="utf-8")
    (crate / "stdin").write_text("", encoding="utf-8")
    (crate / "stdout").write_text("", encoding="utf-8")
    done = subprocess.run(["rt", "run"], cwd=crate, stdout=subprocess.PIPE, stderr=subprocess.STDOUT, text=True,
                          stdin=subprocess.DEVNULL)
    program = crate / "out" / "needed_bench"
    if done.returncode != 0 or not program.exists():
        sys.exit("bench: the encoding isn't built:\n" + "\n".join(done.stdout.splitlines()[-12:]))
    return program


def main():
    words = argparse.ArgumentParser(description=__doc__.splitlines()[0])
    words.add_argument("--arguments", type=int, default=ARGUMENTS)
    words.add_argument("--attacks", type=int, default=ATTACKS)
    words.add_argument("--runs", type=int, default=3)
    words.add_argument("--program", help="a program that was built before")
    words.add_argument("--keep", help="where to keep the program that is built")
    asked = words.parse_args()
    wrong = 0
    with tempfile.TemporaryDirectory() as name:
        folder = Path(name)
        program = Path(asked.program) if asked.program else built(folder)
        if asked.keep:
            shutil.copy(program, asked.keep)
        text = folder / "size"
        text.write_text(f"{asked.arguments} {asked.attacks}\n", encoding="ascii")
        for _ in range(asked.runs):
            told = subprocess.run([sys.executable, "-I", "-S", "-c", MEASURE, str(text), str(program)],
                                  stdout=subprocess.PIPE, text=True, check=True).stdout.split()
            live, attacks, axioms, members, taken, read, memory, status = map(int, told)
            right = (status == 0 and live == asked.arguments and axioms == 3 + 8 * live + 5 * attacks
                     and members == asked.arguments // 2)
            wrong += not right
            print(f"needed: {live} arguments, {attacks} attacks: {axioms} axioms in {taken / 1000:.3f} s; "
                  f"{members} members decoded of {2 * live} literals in {read / 1000:.3f} s; "
                  f"peak memory of it all {memory / 1024:.0f} MB{'' if right else ', WRONG'}", flush=True)
    sys.exit(1 if wrong else 0)


if __name__ == "__main__":
    main()
