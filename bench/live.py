#!/usr/bin/env python3
"""Measures a session that edits a framework and asks after each edit, beside a run of its own for each question.

The framework has 2,000 arguments on a ring and 8,000 attacks between arguments at most five apart, chosen at random, the
same on each run. The script drops an attack and adds one in turn, and asks each time whether some preferred or some
stable set accepts an argument. Each answer of the session is compared with that of a run on the framework as it then was.

usage: bench/live.py [--program PATH] [--edits N] [--runs N]
"""
import argparse
import os
import random
import subprocess
import sys
import tempfile
import time
from pathlib import Path

TOP = Path(__file__).resolve().parent.parent
# As ./argue sets them.
SETTINGS = {"GLIBC_TUNABLES": "glibc.malloc.hugetlb=1:glibc.malloc.top_pad=67108864", "LD_BIND_NOW": "1", **os.environ}
ARGUMENTS, ATTACKS, NEAR = 2_000, 8_000, 5


def pair_of(choose):
    """An attack between two arguments that are near each other."""
    target = choose.randint(1, ARGUMENTS)
    return (target - 1 + choose.randint(-NEAR, NEAR)) % ARGUMENTS + 1, target


def course(edits):
    """The attacks at the beginning, and for each edit its command, the task, the argument asked about, and the attacks
    then."""
    choose = random.Random(1)
    attacks = set()
    while len(attacks) < ATTACKS:
        attacks.add(pair_of(choose))
    first, steps = sorted(attacks), []
    for turn in range(edits):
        if turn % 2 == 0:
            pair = choose.choice(sorted(attacks))
            attacks.remove(pair)
            command = f"noatt {pair[0]} {pair[1]}"
        else:
            pair = pair_of(choose)
            while pair in attacks:
                pair = pair_of(choose)
            attacks.add(pair)
            command = f"att {pair[0]} {pair[1]}"
        steps.append((command, ("DC-PR", "DC-ST")[turn // 2 % 2], choose.randint(1, ARGUMENTS), sorted(attacks)))
    return first, steps


def text_of(attacks):
    """The framework's text."""
    return f"p af {ARGUMENTS}\n" + "".join(f"{b} {a}\n" for b, a in attacks)


def timed(words):
    """The seconds of a run, its status and its lines."""
    begin = time.perf_counter()
    done = subprocess.run(words, env=SETTINGS, stdout=subprocess.PIPE, text=True)
    return time.perf_counter() - begin, done.returncode, done.stdout.splitlines()


def verdicts(lines):
    """YES, NO or UNKNOWN of each query of a transcript of one session."""
    return [line for line in lines if line in ("YES", "NO", "UNKNOWN")]


def main():
    words = argparse.ArgumentParser(description=__doc__.splitlines()[0])
    words.add_argument("--program", default=str(TOP / "out" / "argue"))
    words.add_argument("--edits", type=int, default=1_000)
    words.add_argument("--runs", type=int, default=1_000, help="how many of the questions are put to runs of their own")
    given = words.parse_args()
    first, steps = course(given.edits)
    with tempfile.TemporaryDirectory() as folder:
        file, script = Path(folder, "framework.af"), Path(folder, "script")
        file.write_text(text_of(first), encoding="ascii")
        script.write_text("".join(f"1 {edit}\n1 ask {task} {a}\n" for edit, task, a, _ in steps), encoding="ascii")
        seconds, status, lines = timed([given.program, "live", "-f", str(file), "-s", str(script)])
        told = verdicts(lines)
        print(f"one session, {len(steps):,} edits and queries: {seconds:.2f} s, status {status}")
        alone, wrong = 0.0, len(told) != len(steps)
        for at, (_, task, a, attacks) in list(enumerate(steps))[: given.runs]:
            file.write_text(text_of(attacks), encoding="ascii")
            taken, _, answer = timed([given.program, "-p", task, "-a", str(a), "-f", str(file)])
            alone += taken
            wrong += at < len(told) and answer[0] != told[at]
        count = min(given.runs, len(steps))
        print(f"{count:,} runs, one for each query: {alone:.2f} s; {alone / count * len(steps) / seconds:.1f} times as long for all")
    sys.exit(1 if wrong else 0)


if __name__ == "__main__":
    main()
