#!/usr/bin/env python3
"""Measures how a log fills: 1,000,000 derived steps of ten literals and five hints each.

It copies the crates to a temporary folder, puts the filling below in place of the tests of hinted_log there, has
`rt test` prove and build it (some minutes), runs it, and prints seconds, peak memory and bytes a step.

usage: bench/log.py [--runs K]
"""
import argparse
import os
import shutil
import subprocess
import sys
import tempfile
import time
from pathlib import Path

TOP = Path(__file__).resolve().parent.parent
STEPS = 1_000_000
NEEDED = ("lists", "plain_lits", "hinted_log")

# It stands here, and not in a file of its own, since `rt ci` refuses a source outside the crates.
FILLING = """\
//! A log that is filled with derived steps of ten literals and five hints each.

use crate::{Log, LogFault};
use plain_lits::{Clause, Lit};
use std::alloc::Global;

fn yes(var: usize) -> Lit {
    Lit {
        var,
        positive: true,
    }
}

fn no(var: usize) -> Lit {
    Lit {
        var,
        positive: false,
    }
}

/// A log of five axioms, and so many derived steps that each follow from all five.
fn filled(alloc: Global, count: u32) -> Result<Log, LogFault> {
    let mut log = Log::open(alloc, 50_000_000)?;
    let one = log.axiom(Clause::from_slice(alloc, &[yes(1), yes(11)])?)?;
    let two = log.axiom(Clause::from_slice(alloc, &[no(11), yes(12)])?)?;
    let three = log.axiom(Clause::from_slice(alloc, &[no(12), yes(13)])?)?;
    let four = log.axiom(Clause::from_slice(alloc, &[no(13), yes(14)])?)?;
    let five = log.axiom(Clause::from_slice(alloc, &[yes(2), no(14)])?)?;
    let lits = [
        yes(1),
        yes(2),
        yes(3),
        yes(4),
        yes(5),
        yes(6),
        yes(7),
        yes(8),
        yes(9),
        yes(10),
    ];
    let hints = [one, two, three, four, five];
    for _ in 0..count {
        log.derive(Clause::from_slice(alloc, &lits)?, &hints)?;
    }
    Ok(log)
}

#[test]
fn filling(rt: HostRuntime) {
    assert!(rt; matches!(&filled(rt.alloc(), 1_000_000), Ok(log) if log.len() == 1_000_005));
}
"""


def copied(folder):
    """A copy of the crates that the log stands on, with the filling in place of the log's tests."""
    for name in NEEDED:
        shutil.copytree(TOP / "crates" / name, folder / "crates" / name,
                        ignore=shutil.ignore_patterns("out", "must-fail"))
    wanted = [line for line in (TOP / "crates.txt").read_text(encoding="utf-8").splitlines()
              if line.split(":")[0] in NEEDED]
    (folder / "crates.txt").write_text("\n".join(wanted) + "\n", encoding="utf-8")
    shutil.copy(TOP / "HANDLES", folder / "HANDLES")
    crate = folder / "crates" / "hinted_log"
    (crate / "src" / "tests.rt").write_text(FILLING, encoding="utf-8")
    shutil.rmtree(crate / "proofs" / "tests", ignore_errors=True)
    return crate


def timed(program):
    """Runs the filling in a process of its own: seconds, peak memory in bytes, and the status."""
    begin = time.perf_counter()
    child = os.posix_spawn(program, [program, "tests::filling"], os.environ,
                           file_actions=[(os.POSIX_SPAWN_OPEN, 1, "/dev/null", os.O_WRONLY, 0)])
    _, status, used = os.wait4(child, 0)
    return time.perf_counter() - begin, used.ru_maxrss * 1024, os.waitstatus_to_exitcode(status)


def main():
    words = argparse.ArgumentParser(description=__doc__.splitlines()[0])
    words.add_argument("--runs", type=int, default=3)
    asked = words.parse_args()
    with tempfile.TemporaryDirectory() as folder:
        crate = copied(Path(folder))
        built = subprocess.run(["rt", "test"], cwd=crate, stdout=subprocess.PIPE, stderr=subprocess.STDOUT, text=True)
        if built.returncode != 0:
            sys.exit("bench: the log isn't built:\n" + "\n".join(built.stdout.splitlines()[-5:]))
        wrong = 0
        for _ in range(asked.runs):
            seconds, memory, status = timed(str(crate / "out" / "hinted_log_tests"))
            wrong += status != 0
            print(f"log: {STEPS} derived steps of ten literals and five hints: {seconds:.2f} s, {memory / 1e6:.0f} MB, "
                  f"{memory / STEPS:.0f} bytes a step{'' if status == 0 else f', status {status}'}")
    sys.exit(1 if wrong else 0)


if __name__ == "__main__":
    main()
