#!/usr/bin/env python3
"""Lists extensions up to their limit of 10,000, and past it; and fills a history with 1,000,000 edits, in groups.

Groups of arguments that all attack each other have one stable set for each choice of one argument from every group:
four groups of ten have 10,000, fourteen pairs 16,384; a further argument that attacks all and is attacked by all makes
one set more. 10,000 sets are to be listed whole, in order and each once; with more, the run ends with status 7 and
`error: limit extensions`.

The history is filled by groups of 10,000 edits and one of 9,998. Then a group of three has no room, also where the
framework would refuse it; one of two fills the history; and no edit has room behind it, while queries are answered.

usage: bench/limits.py [--program PATH]
"""
import argparse
import itertools
import os
import subprocess
import sys
import tempfile
import time
from pathlib import Path

TOP = Path(__file__).resolve().parent.parent
# As ./argue sets them.
SETTINGS = {"GLIBC_TUNABLES": "glibc.malloc.hugetlb=1:glibc.malloc.top_pad=67108864", "LD_BIND_NOW": "1", **os.environ}


def groups(sizes):
    """The groups of so many arguments each, numbered one after the other."""
    first = 1
    for size in sizes:
        yield range(first, first + size)
        first += size


def framework(sizes, loners):
    """The text of the framework of groups and of so many loners, and its stable sets in order."""
    parts, last = list(groups(sizes)), sum(sizes)
    attacks = [pair for part in parts for pair in itertools.permutations(part, 2)]
    sets = list(itertools.product(*parts))
    for loner in range(last + 1, last + loners + 1):
        attacks += [pair for other in range(1, loner) for pair in ((loner, other), (other, loner))]
        sets.append((loner,))
    text = f"p af {last + loners}\n" + "".join(f"{b} {a}\n" for b, a in attacks)
    return text, sorted(sets)


def grouped(edits):
    """The lines of a group of one session."""
    return "".join(f"1 {line}\n" for line in ["begin", *edits, "end"])


def full_history():
    """A script that fills the history of a framework with the attack 1 2, and its transcript."""
    pair, full = ["noatt 1 2", "att 1 2"], "LIMIT HistoryFull"
    taken = [pair * 5_000] * 99 + [pair * 4_999]
    script = "".join(map(grouped, taken)) + grouped([*pair, "noatt 1 2"]) + grouped(["att 9 9"] * 3)
    script += grouped(pair) + "1 ask SE-GR\n1 noatt 1 2\n1 att 9 9\n" + grouped(["noatt 1 2"]) + "1 ask DC-GR 2\n"
    told = [(at, "OK") for at in range(1, 101)] + [(100, full), (100, full), (101, "OK"), (101, "w 1")]
    told += [(101, full), (101, full), (101, full), (101, "NO")]
    transcript = "session 1\n" + "".join(f"at {at}\n{line}\n" for at, line in told)
    return script, transcript + "history\n" + "".join(map(grouped, [*taken, pair]))


def fills_history(program, folder):
    """Whether a run of the script ends with its transcript."""
    file, lines = Path(folder, "framework.af"), Path(folder, "script")
    script, transcript = full_history()
    file.write_text("p af 2\n1 2\n", encoding="ascii")
    lines.write_text(script, encoding="ascii")
    begin = time.perf_counter()
    done = subprocess.run([program, "live", "-f", str(file), "-s", str(lines)], env=SETTINGS, stdout=subprocess.PIPE,
                          text=True)
    right = (done.returncode, done.stdout) == (0, transcript)
    print(f"a history of 1,000,000 edits: {time.perf_counter() - begin:.1f} s, status {done.returncode}, "
          f"{'right' if right else 'WRONG'}")
    return right


def main():
    words = argparse.ArgumentParser(description=__doc__.splitlines()[0])
    words.add_argument("--program", default=str(TOP / "out" / "argue"))
    program, wrong = words.parse_args().program, 0
    with tempfile.TemporaryDirectory() as folder:
        for sizes, loners in (([10] * 4, 0), ([10] * 4, 1), ([2] * 14, 0)):
            text, sets = framework(sizes, loners)
            file = Path(folder, "framework.af")
            file.write_text(text, encoding="ascii")
            listed = "".join("w" + "".join(f" {a}" for a in one) + "\n" for one in sets)
            wanted = (0, listed) if len(sets) <= 10_000 else (7, "error: limit extensions\n")
            for task in ("EE-ST", "EE-PR", "EE-SST"):
                begin = time.perf_counter()
                done = subprocess.run([program, "-p", task, "-f", str(file), "-b", "4000000000"], env=SETTINGS,
                                      stdout=subprocess.PIPE, text=True)
                right = (done.returncode, done.stdout) == wanted
                wrong += not right
                print(f"{task} with {len(sets):,} sets: {time.perf_counter() - begin:.1f} s, status {done.returncode}, "
                      f"{'right' if right else 'WRONG'}")
        wrong += not fills_history(program, folder)
    sys.exit(1 if wrong else 0)


if __name__ == "__main__":
    main()
