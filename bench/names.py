#!/usr/bin/env python3
"""Compares the reading of a large framework by names with that of the same framework by numbers, with SE-GR.

It writes a random framework of 1,000,000 arguments and 3,000,000 attacks (the same on each run) as `p af`, as APX and as
TGF, has the program answer SE-GR on each, and prints the seconds from start to end and the peak memory of each run. The
answers have to be the same under the numbering. APX has to take at most three times the time of `p af`, and 600 MB.

usage: bench/names.py [--program PATH] [--arguments N] [--attacks M] [--runs K]
"""
import argparse
import os
import sys
import tempfile
from pathlib import Path

from grounded import TOP, grounded, scattered, timed

TIMES = 3  # how many times the time of `p af` the reading of APX may take
MEMORY = 600  # megabytes


def write(folder, count, attacks):
    """The framework in each format, by the words that ask about it."""
    numbers, apx, tgf = (f"{folder}/framework.{end}" for end in ("af", "apx", "tgf"))
    with open(numbers, "w", encoding="ascii") as file:
        file.write(f"p af {count}\n")
        file.writelines(f"{attacker} {target}\n" for attacker, target in attacks)
    with open(apx, "w", encoding="ascii") as file:
        file.writelines(f"arg(a{argument}).\n" for argument in range(1, count + 1))
        file.writelines(f"att(a{attacker},a{target}).\n" for attacker, target in attacks)
    with open(tgf, "w", encoding="ascii") as file:
        file.writelines(f"a{argument}\n" for argument in range(1, count + 1))
        file.write("#\n")
        file.writelines(f"a{attacker} a{target}\n" for attacker, target in attacks)
    return {
        "p af": ["-p", "SE-GR", "-f", numbers],
        "APX": ["names", "-p", "SE-GR", "-k", "apx", "-f", apx],
        "TGF": ["names", "-p", "SE-GR", "-k", "tgf", "-f", tgf],
    }


def main():
    words = argparse.ArgumentParser(description=__doc__.splitlines()[0])
    words.add_argument("--program", default=str(TOP / "out" / "argue"))
    words.add_argument("--arguments", type=int, default=1_000_000)
    words.add_argument("--attacks", type=int, default=3_000_000)
    words.add_argument("--runs", type=int, default=3)
    asked = words.parse_args()
    if not os.access(asked.program, os.X_OK):
        sys.exit(f"bench: there is no program {asked.program}")
    wrong, least, most = 0, {}, {}
    with tempfile.TemporaryDirectory() as folder:
        attacks = scattered(asked.arguments, asked.attacks)
        members = grounded(asked.arguments, attacks)
        for name, line in write(folder, asked.arguments, attacks).items():
            letter = "" if name == "p af" else "a"
            wanted = "w" + "".join(f" {letter}{member}" for member in members) + "\n"
            for _ in range(asked.runs):
                answer = f"{folder}/answer"
                seconds, memory, status = timed(asked.program, line, answer)
                right = status == 0 and Path(answer).read_text(encoding="ascii") == wanted
                wrong += not right
                least[name] = min(seconds, least.get(name, seconds))
                most[name] = max(memory, most.get(name, memory))
                print(f"{name}: {seconds:.3f} s, {memory:.0f} MB, {'right' if right else f'WRONG, status {status}'}")
    times = least["APX"] / least["p af"]
    held = times <= TIMES and most["APX"] <= MEMORY
    print(f"names: APX takes {times:.2f} times the time of `p af`, TGF {least['TGF'] / least['p af']:.2f} times; "
          f"{most['APX']:.0f} MB, {'held' if held else 'NOT HELD'}")
    sys.exit(0 if held and not wrong else 1)


if __name__ == "__main__":
    main()
