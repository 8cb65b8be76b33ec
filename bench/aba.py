#!/usr/bin/env python3
"""Measures a built program on large assumption-based frameworks, once its SE-GR reads them.

It writes a random framework of 1,000,000 atoms, of which 100,000 are assumptions with a contrary each, and 1,000,000
rules of three body atoms each (the same on each run), the same with five contraries each (`several`), and a chain in
which each of 1,000,000 atoms is derived from the one before it. The program answers SE-GR on each, and the seconds from
start to end and the peak memory are printed. Every answer is compared with a grounded set that is computed here, apart
from the program.

The aims are a second and 300 MB to read 1,000,000 rules, and no more for what a set derives.

usage: bench/aba.py [--atoms N] [--rules M] [--runs K] [--only NAME] [--program PROGRAM] [--keep FOLDER]
"""
import argparse
import random
import sys
import tempfile
from pathlib import Path

sys.dont_write_bytecode = True
sys.path.insert(0, str(Path(__file__).resolve().parent))
from grounded import timed  # noqa: E402

TOP = Path(__file__).resolve().parent.parent


def scattered(atoms, rules, each=1):
    """Assumptions with so many contraries each, and rules of three body atoms, chosen at random."""
    choose = random.Random(1).randint
    last = max(1, atoms // 10)
    contraries = {a: [choose(last + 1, atoms) for _ in range(each)] for a in range(1, last + 1)}
    listed = [(choose(last + 1, atoms), [choose(1, atoms) for _ in range(3)]) for _ in range(rules)]
    return contraries, listed


def several(atoms, rules):
    """As scattered, with five contraries each."""
    return scattered(atoms, rules, 5)


def chain(atoms, _rules):
    """Each atom is derived from the one before it and from 1, the assumption, whose contrary is the last."""
    return {1: [atoms]}, [(a + 1, [a, 1]) for a in range(1, atoms)]


MADE = {"scattered": scattered, "several": several, "chain": chain}


def text_of(atoms, contraries, rules):
    """The framework's text."""
    lines = [f"p aba {atoms}"]
    lines += [f"a {a}" for a in contraries]
    lines += [f"c {a} {c}" for a, row in contraries.items() for c in row]
    lines += [" ".join(map(str, ["r", head] + body)) for head, body in rules]
    return "\n".join(lines) + "\n"


class Theory:
    """What sets derive by rules, by counting the atoms of each body that are still to come."""

    def __init__(self, atoms, rules):
        self.heads = [head for head, _ in rules]
        self.bodies = [len(set(body)) for _, body in rules]
        self.uses = [[] for _ in range(atoms + 1)]
        for index, (_, body) in enumerate(rules):
            for atom in set(body):
                self.uses[atom].append(index)

    def of(self, given):
        left = self.bodies[:]
        derived = set(given)
        work = list(derived)
        for index, count in enumerate(left):
            if count == 0 and self.heads[index] not in derived:
                derived.add(self.heads[index])
                work.append(self.heads[index])
        for atom in work:
            for index in self.uses[atom]:
                left[index] -= 1
                if left[index] == 0 and self.heads[index] not in derived:
                    derived.add(self.heads[index])
                    work.append(self.heads[index])
        return derived


def grounded(atoms, contraries, rules):
    """The grounded set: from the empty set on, what the set defends takes its place, until that is nothing new."""
    theory = Theory(atoms, rules)

    def rest(members):
        derived = theory.of(members)
        return {a for a, row in contraries.items() if derived.isdisjoint(row)}

    found = set()
    while True:
        more = rest(rest(found))
        if more <= found:
            return sorted(found)
        found = more


def main():
    words = argparse.ArgumentParser(description=__doc__.splitlines()[0])
    words.add_argument("--atoms", type=int, default=1_000_000)
    words.add_argument("--rules", type=int, default=1_000_000)
    words.add_argument("--runs", type=int, default=3)
    words.add_argument("--only", default="", help="a word of the names of the frameworks to ask of")
    words.add_argument("--program", default=str(TOP / "argue"))
    words.add_argument("--keep", help="a folder in which the texts stay")
    given = words.parse_args()
    with tempfile.TemporaryDirectory() as folder:
        for name, made in MADE.items():
            if given.only not in name:
                continue
            contraries, rules = made(given.atoms, given.rules)
            text = Path(given.keep or folder) / f"{name}.aba"
            text.write_text(text_of(given.atoms, contraries, rules))
            expected = " ".join(map(str, ["w"] + grounded(given.atoms, contraries, rules))) + "\n"
            print(f"{name}: {text.stat().st_size / 1e6:.0f} MB, grounded set of {len(expected.split()) - 1}")
            answer = Path(folder) / "answer"
            for _ in range(given.runs):
                seconds, memory, status = timed(given.program, ["-p", "SE-GR", "-f", str(text)], str(answer))
                right = status == 0 and answer.read_text() == expected
                print(f"  {seconds:.2f} s, {memory:.0f} MB, {'right' if right else f'WRONG, status {status}'}", flush=True)
                if not right:
                    sys.exit(1)


if __name__ == "__main__":
    main()
