#!/usr/bin/env python3
"""Measures the built program on two large frameworks, with SE-GR.

It writes a chain of 1,000,000 arguments and a random framework of 1,000,000 arguments and 3,000,000 attacks (the same
on each run), has ./argue answer SE-GR on each, and prints the seconds from start to end and the peak memory of each
run. Every answer is compared with a grounded set that is computed here, apart from the program.

usage: bench/grounded.py [--arguments N] [--attacks M] [--runs K]
"""
import argparse
import os
import random
import subprocess
import sys
import tempfile
from pathlib import Path

TOP = Path(__file__).resolve().parent.parent


def chain(count):
    """Each argument attacks the next."""
    return [(i, i + 1) for i in range(1, count)]


def scattered(count, attacks):
    """So many attacks between arguments chosen at random, in no order."""
    choose = random.Random(1).randint
    return [(choose(1, count), choose(1, count)) for _ in range(attacks)]


def grounded(count, attacks):
    """The grounded set, by counting each argument's attackers that are not yet attacked from within."""
    pairs = set(attacks)
    targets = [[] for _ in range(count + 1)]
    open_attackers = [0] * (count + 1)
    for attacker, target in pairs:
        targets[attacker].append(target)
        open_attackers[target] += 1
    work = [a for a in range(1, count + 1) if open_attackers[a] == 0]
    members = set(work)
    out = set()
    for member in work:
        for beaten in targets[member]:
            if beaten in out:
                continue
            out.add(beaten)
            for helped in targets[beaten]:
                open_attackers[helped] -= 1
                if open_attackers[helped] == 0 and helped not in members:
                    members.add(helped)
                    work.append(helped)
    return sorted(members)


# Runs a program with its output going to a file, and prints the seconds, the peak memory in KB and the status. It is a process
# of its own: a child's peak begins with that of the process that started it, which here has to be a small one.
MEASURE = """
import os, sys, time
# As ./argue sets them.
settings = {"GLIBC_TUNABLES": "glibc.malloc.hugetlb=1:glibc.malloc.top_pad=67108864", "LD_BIND_NOW": "1", **os.environ}
begin = time.perf_counter()
child = os.posix_spawn(sys.argv[2], sys.argv[2:], settings, file_actions=[
    (os.POSIX_SPAWN_OPEN, 1, sys.argv[1], os.O_WRONLY | os.O_CREAT | os.O_TRUNC, 0o600)])
_, status, used = os.wait4(child, 0)
print(time.perf_counter() - begin, used.ru_maxrss, os.waitstatus_to_exitcode(status))
"""


def timed(program, words, answer):
    """Runs the program with its output going to a file; seconds, peak memory in MB, and the status."""
    told = subprocess.run([sys.executable, "-I", "-S", "-c", MEASURE, answer, program] + words,
                          stdout=subprocess.PIPE, text=True, check=True).stdout.split()
    return float(told[0]), int(told[1]) / 1024, int(told[2])


def main():
    words = argparse.ArgumentParser(description=__doc__.splitlines()[0])
    words.add_argument("--arguments", type=int, default=1_000_000)
    words.add_argument("--attacks", type=int, default=3_000_000)
    words.add_argument("--runs", type=int, default=3)
    asked = words.parse_args()
    program = str(TOP / "out" / "argue")
    if os.system(f"'{TOP / 'argue'}' >/dev/null") != 0 or not os.access(program, os.X_OK):
        sys.exit("bench: ./argue doesn't run")
    wrong = 0
    with tempfile.TemporaryDirectory() as folder:
        for name, attacks in (("chain", chain(asked.arguments)),
                              ("random", scattered(asked.arguments, asked.attacks))):
            framework, answer = f"{folder}/{name}.af", f"{folder}/{name}.out"
            with open(framework, "w", encoding="ascii") as file:
                file.write(f"p af {asked.arguments}\n")
                file.writelines(f"{attacker} {target}\n" for attacker, target in attacks)
            wanted = "w" + "".join(f" {a}" for a in grounded(asked.arguments, attacks)) + "\n"
            size = os.path.getsize(framework) / 1e6
            for run in range(asked.runs):
                seconds, memory, status = timed(program, ["-p", "SE-GR", "-f", framework], answer)
                right = status == 0 and Path(answer).read_text(encoding="ascii") == wanted
                wrong += not right
                print(f"{name}: {asked.arguments} arguments, {len(attacks)} attacks, {size:.1f} MB of text: "
                      f"{seconds:.3f} s, {memory:.0f} MB, {'right' if right else f'WRONG, status {status}'}")
    sys.exit(1 if wrong else 0)


if __name__ == "__main__":
    main()
