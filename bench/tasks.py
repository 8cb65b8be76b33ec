#!/usr/bin/env python3
"""Measures what a certificate costs: each task plain, with -c, and its check, on frameworks of three kinds.

It writes frameworks (the same on each run), has the built program answer each of the 26 tasks on them, plainly and with
-c, and check what it wrote, and prints the seconds of each, the certificate's bytes, and the ratios. A check that
doesn't print ACCEPTED ends the run. A query that ends without an answer is told with its status.

usage: bench/tasks.py [--program PATH] [--runs K] [--budget UNITS]
"""
import argparse
import os
import random
import statistics
import subprocess
import sys
import tempfile
import time
from pathlib import Path

TOP = Path(__file__).resolve().parent.parent
SEMANTICS = ["CO", "GR", "PR", "ST", "SST", "ID", "STG"]
TASKS = [f"{problem}-{one}" for problem in ("DC", "DS", "SE") for one in SEMANTICS]
TASKS += [f"EE-{one}" for one in ("CO", "PR", "ST", "SST", "STG")]
# As ./argue sets them.
SETTINGS = {"GLIBC_TUNABLES": "glibc.malloc.hugetlb=1:glibc.malloc.top_pad=67108864", "LD_BIND_NOW": "1", **os.environ}


def scattered(choose, count, degree):
    """Attacks between arguments chosen at random, so many for each argument."""
    return [(choose.randint(1, count), choose.randint(1, count)) for _ in range(int(count * degree))]


def ring(choose, count, near):
    """Each argument attacks some of those next to it on a ring, or one far away."""
    attacks = []
    for argument in range(1, count + 1):
        for step in range(1, near + 1):
            far = choose.random() < 0.1
            target = choose.randint(1, count) if far else (argument - 1 + step) % count + 1
            attacks.append((argument, target) if choose.random() < 0.5 else (target, argument))
    return attacks


def rivals(choose, count):
    """Pairs that attack each other, and arguments that some of them attack."""
    attacks = []
    for first in range(1, 13, 2):
        attacks += [(first, first + 1), (first + 1, first)]
    return attacks + [(choose.randint(1, count), choose.randint(13, count)) for _ in range(2 * count)]


def frameworks():
    """Names, numbers of arguments and attacks."""
    choose = random.Random(1)
    yield "random 60, 2 each", 60, scattered(choose, 60, 2)
    yield "random 150, 5 each", 150, scattered(choose, 150, 5)
    yield "ring of 60", 60, ring(choose, 60, 3)
    yield "six pairs of rivals, 40", 40, rivals(choose, 40)


def timed(words, text):
    """Runs the program with its output going to a file: seconds and status."""
    with open(text, "wb") as out:
        begin = time.perf_counter()
        done = subprocess.run(words, stdout=out, env=SETTINGS)
    return time.perf_counter() - begin, done.returncode


def median(runs, words, text):
    """The median of the seconds of some runs, and the status of the last."""
    told = [timed(words, text) for _ in range(runs)]
    return statistics.median(seconds for seconds, _ in told), told[-1][1]


def measure(program, runs, budget, folder, file, task):
    """The seconds of the query, of it with -c and of the check, and the bytes; the status where there's no answer."""
    answer, certificate = f"{folder}/answer", f"{folder}/certificate"
    query = ["-p", task, "-f", file] + (["-a", "1"] if task[:2] in ("DC", "DS") else [])
    plain, status = median(runs, [program] + query + ["-b", budget], answer)
    if status:
        return status
    written, _ = median(runs, [program] + query + ["-b", budget, "-c", certificate], answer)
    checked, _ = median(runs, [program, "check"] + query + ["-r", answer, "-c", certificate], f"{folder}/verdict")
    if Path(f"{folder}/verdict").read_text() != "ACCEPTED\n":
        sys.exit(f"{file} {task}: the certificate isn't accepted")
    return plain, written, checked, os.path.getsize(certificate)


def main():
    words = argparse.ArgumentParser(description=__doc__.splitlines()[0])
    words.add_argument("--program", default=str(TOP / "out" / "argue"))
    words.add_argument("--runs", type=int, default=5)
    words.add_argument("--budget", default="4000000000")
    given = words.parse_args()
    with tempfile.TemporaryDirectory() as folder:
        for name, count, attacks in frameworks():
            file = f"{folder}/framework.af"
            Path(file).write_text(f"p af {count}\n" + "".join(f"{b} {a}\n" for b, a in attacks))
            print(f"{name}: {count} arguments, {len(set(attacks))} attacks")
            for task in TASKS:
                told = measure(given.program, given.runs, given.budget, folder, file, task)
                if isinstance(told, int):
                    print(f"  {task:7} ends with status {told}")
                    continue
                plain, written, checked, size = told
                ratios = f"with -c {written / plain:5.2f} times, check {checked / plain:5.2f} times"
                print(f"  {task:7} {plain:8.4f} s, {ratios}, {size:10,} bytes")


if __name__ == "__main__":
    main()
