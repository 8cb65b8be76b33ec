#!/usr/bin/env python3
"""Compares the program with a peer on a fixed list of searches: processor seconds and memory, row by row.

It writes frameworks of eight families (the same on each run), has the built program and, where one is given, a peer with
the same words answer each row, one after the other, and prints a table in Markdown with the ratios below: the geometric
mean over all rows that both end, and over those in which one takes a tenth of a second. Where both answer, YES and NO and
the number of sets have to be the same; another answer ends the run with status 1. A row that isn't ended within the limit
of processor seconds is told so. Memory is told as the system counts it, from some 12 megabytes on: this script's own.

usage: bench/search.py [--program PATH] [--peer PATH | --peers FOLDER] [--runs K] [--limit SECONDS] [--only FAMILY]

    --peers FOLDER  a folder with mutoksia/mutoksia.cpp, which is copied and compiled (it needs CaDiCaL's library)
"""
import argparse
import math
import os
import random
import resource
import shutil
import statistics
import subprocess
import sys
import tempfile
from pathlib import Path

TOP = Path(__file__).resolve().parent.parent
# As ./argue sets them.
SETTINGS = {"GLIBC_TUNABLES": "glibc.malloc.hugetlb=1:glibc.malloc.top_pad=67108864", "LD_BIND_NOW": "1", **os.environ}
BUDGET = "4000000000"


def scattered(choose, count, degree, odd=0):
    """Attacks between arguments chosen at random; `odd` cycles of three, each attacked by one argument."""
    attacks = {(choose.randint(1, count), choose.randint(1, count)) for _ in range(count * degree)}
    attacks = {(b, a) for b, a in attacks if b != a}
    for first in range(count + 1, count + 3 * odd + 1, 3):
        attacks |= {(first, first + 1), (first + 1, first + 2), (first + 2, first), (choose.randint(1, count), first)}
    return count + 3 * odd, sorted(attacks)


def preferring(choose, count, joins):
    """Each argument is joined to earlier ones, rather to those with many neighbours; some attack both ways."""
    ends, attacks = [1], set()
    for new in range(2, count + 1):
        for old in {choose.choice(ends) for _ in range(joins)}:
            pair = (new, old) if choose.random() < 0.5 else (old, new)
            attacks |= {pair, pair[::-1]} if choose.random() < 0.3 else {pair}
            ends += [new, old]
    return count, sorted(attacks)


def clusters(choose, count, size):
    """Strong components in a row: a cycle and two attacks an argument inside, some to the next ones."""
    attacks = set()
    for start in range(1, count, size):
        inside = list(range(start, start + size))
        attacks |= {(a, b) for a, b in zip(inside, inside[1:] + inside[:1])}
        attacks |= {tuple(choose.sample(inside, 2)) for _ in range(2 * size)}
        if start + 2 * size < count:
            later = range(start + size, min(count, start + 3 * size) + 1)
            attacks |= {(choose.choice(inside), choose.choice(later)) for _ in range(size // 5)}
    return count, sorted(attacks)


def streets(choose, side):
    """A grid with missing edges, each one way or both ways."""
    attacks = set()
    for at in range(1, side * side + 1):
        for near in ([at + 1] if at % side else []) + ([at + side] if at + side <= side * side else []):
            if choose.random() < 0.8:
                pair = (at, near) if choose.random() < 0.5 else (near, at)
                attacks |= {pair, pair[::-1]} if choose.random() < 0.4 else {pair}
    return side * side, sorted(attacks)


def rivals(_choose, count):
    """Pairs that attack each other, and a third argument that both attack: two preferred sets for each pair."""
    firsts = range(1, count, 3)
    return count, [pair for a in firsts for pair in ((a, a + 1), (a + 1, a), (a, a + 2), (a + 1, a + 2))]


def chain(_choose, count):
    """Each argument attacks the next."""
    return count, [(at, at + 1) for at in range(1, count)]


def rules(choose, count, acyclic):
    """A framework with rules: three tenths are assumptions, one to five rules for each other atom, bodies of up to five."""
    names = list(range(1, count + 1))
    choose.shuffle(names)
    given, derived = sorted(names[: count * 3 // 10]), names[count * 3 // 10 :]
    lines = [f"a {a}" for a in given] + [f"c {a} {choose.randint(1, count)}" for a in given]
    for place, head in enumerate(derived):
        known = given + derived[:place] if acyclic else names
        for _ in range(choose.randint(1, 5)):
            body = {choose.choice(known) for _ in range(choose.randint(1, 5))} - {head}
            lines.append(" ".join(map(str, ["r", head, *sorted(body)])))
    return count, lines


# Each family: what makes it, and the tasks that are asked of it.
FAMILIES = {
    "random 150": (lambda r: scattered(r, 150, 5), "SE-PR EE-CO DS-SST DC-ST"),
    "random 230": (lambda r: scattered(r, 230, 6, 10), "DC-CO SE-PR DS-PR SE-ID SE-SST EE-PR"),
    "preferring 80": (lambda r: preferring(r, 80, 2), "SE-PR EE-PR EE-ST EE-SST"),
    "preferring 20,000": (lambda r: preferring(r, 20000, 2), "SE-GR SE-PR DS-PR SE-SST"),
    "clusters 1,000": (lambda r: clusters(r, 1000, 20), "SE-PR DS-ST SE-ID SE-SST"),
    "streets 10,000": (lambda r: streets(r, 100), "SE-PR DS-PR SE-ID"),
    "rivals 36": (lambda r: rivals(r, 36), "EE-PR EE-ST SE-SST"),
    "chain 100,000": (lambda r: chain(r, 100000), "SE-GR SE-PR"),
    "rules 300": (lambda r: rules(r, 300, False), "DC-CO SE-PR DS-PR SE-ST"),
    "rules 1,000, no cycle": (lambda r: rules(r, 1000, True), "SE-GR SE-PR DS-PR SE-ST"),
}


def write(folder, family):
    """Writes the family's framework, and returns the file's path."""
    count, items = FAMILIES[family][0](random.Random(family))
    is_af = isinstance(items[0], tuple)
    lines = [f"p {'af' if is_af else 'aba'} {count}", *(f"{b} {a}" for b, a in items)] if is_af else [f"p aba {count}", *items]
    path = Path(folder) / "framework"
    path.write_text("\n".join(lines) + "\n")
    return str(path)


def answer_of(text):
    """What is compared of an answer: YES, NO, or how many sets."""
    lines = text.splitlines()
    return lines[0] if lines and lines[0] in ("YES", "NO") else sum(line.startswith("w") for line in lines)


def timed(words, limit, folder):
    """Processor seconds, megabytes and answer of one run, or None where the limit was met."""
    def bounded():
        resource.setrlimit(resource.RLIMIT_CPU, (limit, limit + 1))
    text = Path(folder) / "answer"
    with open(text, "wb") as out:
        child = subprocess.Popen(words, stdout=out, stderr=subprocess.DEVNULL, env=SETTINGS, preexec_fn=bounded)
        _, status, used = os.wait4(child.pid, 0)
        child.returncode = status
    if os.WIFSIGNALED(status):
        return None
    return used.ru_utime + used.ru_stime, used.ru_maxrss / 1024, answer_of(text.read_text())


def median(runs, words, limit, folder):
    """The run of the median seconds, or None where one met the limit."""
    told = [timed(words, limit, folder) for _ in range(runs)]
    return None if None in told else statistics.median_low(told)


def geomean(ratios):
    """The geometric mean as text."""
    return f"{math.exp(statistics.fmean(map(math.log, ratios))):.2f} ({len(ratios)} rows)" if ratios else "no row"


def compiled(folder, peers):
    """The peer, compiled in a copy."""
    shutil.copytree(Path(peers) / "mutoksia", Path(folder) / "peer")
    subprocess.run(["make", "-s", "-C", f"{folder}/peer"], check=True)
    return f"{folder}/peer/mutoksia"


def shown(run):
    """Seconds and megabytes of a run as cells."""
    return f"{run[0]:.3f} | {run[1]:.0f}" if run else "not ended | "


def main():
    words = argparse.ArgumentParser(description=__doc__.splitlines()[0])
    words.add_argument("--program", default=str(TOP / "out" / "argue"))
    words.add_argument("--peer")
    words.add_argument("--peers")
    words.add_argument("--runs", type=int, default=1)
    words.add_argument("--limit", type=int, default=60)
    words.add_argument("--only", choices=FAMILIES)
    given = words.parse_args()
    ours, memory, differ = [], [], False
    with tempfile.TemporaryDirectory() as folder:
        peer = compiled(folder, given.peers) if given.peers else given.peer
        print("| framework | task | argue, s | MB | peer, s | MB |\n|---|---|---|---|---|---|")
        for family in [given.only] if given.only else FAMILIES:
            file = write(folder, family)
            for task in FAMILIES[family][1].split():
                query = ["-p", task, "-f", file, *(["-a", "7"] if task[:2] in ("DC", "DS") else []), "-b", BUDGET]
                one = median(given.runs, [given.program, *query], given.limit, folder)
                other = median(given.runs, [peer, *query], given.limit, folder) if peer else None
                print(f"| {family} | {task} | {shown(one)} | {shown(other) if peer else ' | '} |", flush=True)
                if one and other:
                    ours.append((one[0], other[0]))
                    memory.append(one[1] / other[1])
                    if one[2] != other[2]:
                        print(f"search: {family} {task}: {one[2]} here, {other[2]} there", file=sys.stderr)
                        differ = True
    if peer:
        floor = 0.001
        ratios = [(max(one, floor) / max(other, floor), max(one, other)) for one, other in ours]
        print(f"\nseconds, all rows: {geomean([ratio for ratio, _ in ratios])}")
        print(f"seconds, rows of 0.1 s: {geomean([ratio for ratio, most in ratios if most >= 0.1])}")
        print(f"memory: {geomean(memory)}")
    return 1 if differ else 0


if __name__ == "__main__":
    sys.exit(main())
