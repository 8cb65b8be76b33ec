#!/usr/bin/env python3
"""Measures the check of a large certificate, and of small ones that name large things.

The large one has 1,000,000 derived steps of ten literals and five hints each. It writes a framework, an answer and its
certificate (about 150 MB), has ./argue check the answer, and prints the seconds from start to end and the peak memory.
With --peer PROGRAM, a checker of LRAT texts called as PROGRAM CNF LRAT, it also writes the same clauses and hints as
CNF and LRAT, and measures that program beside it.

The question is whether some complete set has an argument that attacks itself, and the answer is NO. The last step alone
shows that; each step before it follows from five axioms on one attack, and has six literals that nothing needs.

The small ones come in two tables. In the first, a certificate of DS-PR has so many sets `w 2` on a framework of so many
arguments, or atoms, of which hardly one attacks another; in the second, so many sets `w 2 I`, and a step that names the
side clause of each, without and with a step more whose hints name all of these. The check of such a certificate should
cost what its text does: beside its seconds of the processor stand those of reading the framework alone, by a check of
a certificate with no set. `--small` measures these alone.

usage: bench/check.py [--steps N] [--runs K] [--peer PROGRAM] [--small]
"""
import argparse
import os
import subprocess
import sys
import tempfile
from pathlib import Path

TOP = Path(__file__).resolve().parent.parent
ARGUMENTS = 20_000
PAIRS = 1_000
# The status of a check that rejects.
REJECTED = 8

# Runs a program with its output going to a file, and prints the seconds, the peak memory in KB, the status and the
# seconds of the processor. It is a process of its own: a child's peak begins with that of the process that started it,
# which here has to be a small one.
MEASURE = """
import os, sys, time
# As ./argue sets them.
settings = {"GLIBC_TUNABLES": "glibc.malloc.hugetlb=1:glibc.malloc.top_pad=67108864", "LD_BIND_NOW": "1", **os.environ}
begin = time.perf_counter()
child = os.posix_spawn(sys.argv[2], sys.argv[2:], settings, file_actions=[
    (os.POSIX_SPAWN_OPEN, 1, sys.argv[1], os.O_WRONLY | os.O_CREAT | os.O_TRUNC, 0o600)])
_, status, used = os.wait4(child, 0)
print(time.perf_counter() - begin, used.ru_maxrss, os.waitstatus_to_exitcode(status), used.ru_utime + used.ru_stime)
"""


def timed(program, words, answer):
    """Runs the program with its output going to a file; seconds, peak memory in MB, status, seconds of the processor."""
    told = subprocess.run([sys.executable, "-I", "-S", "-c", MEASURE, answer, program] + words,
                          stdout=subprocess.PIPE, text=True, check=True).stdout.split()
    return float(told[0]), int(told[1]) / 1024, int(told[2]), float(told[3])


def axioms():
    """The names of the axioms with their clauses, in the order of the steps: one of all, and four of each attack."""
    yield "A14 1", ["-Ad", "Cf"]
    for k in range(PAIRS):
        b, a = pair(k)
        yield f"A1 {a}", ["-Cf", f"-Member:{a}", f"Live:{a}"]
        yield f"A4 {b} {a}", [f"-Attack:{b}:{a}", f"-Member:{b}", f"Tail:{a}:1"]
        yield f"A13 {a}", [f"-Tail:{a}:1", f"Range:{a}"]
        yield f"A2 {b} {a}", ["-Cf", f"-Attack:{b}:{a}", f"-Member:{a}", f"-Member:{b}"]
    yield "A2 1 1", ["-Cf", "-Attack:1:1", "-Member:1"]


def pair(k):
    """The attack of this number."""
    return 2 * k + 2, 2 * k + 3


def derived(steps):
    """The literals of each derived step, and its hints."""
    free = ARGUMENTS - 2 * PAIRS - 3
    for i in range(steps):
        k = i % PAIRS
        b, a = pair(k)
        others = [f"Member:{2 * PAIRS + 3 + (i * 7 + j * 1999) % free}" for j in range(6)]
        first = 4 * k + 2
        yield ["-Ad", f"-Attack:{b}:{a}", f"-Member:{b}", f"-Member:{a}"] + others, [1, first, first + 1, first + 2,
                                                                                     first + 3]
    yield ["-Ad", "-Attack:1:1", "-Member:1"], [1, 4 * PAIRS + 2]


def write_certificate(name, steps):
    with open(name, "w", encoding="ascii") as file:
        file.write("cert 1\nr\n")
        for axiom, _ in axioms():
            file.write(f"a {axiom}\n")
        for literals, hints in derived(steps):
            file.write(f"d {' '.join(literals)} 0 {' '.join(map(str, hints))}\n")
        file.write("end\n")


def write_lrat(cnf, lrat, steps):
    """The same clauses over numbered variables, and the claim's goals and facts as unit clauses."""
    numbers = {}

    def number(literal):
        atom = literal.lstrip("-")
        return numbers.setdefault(atom, len(numbers) + 1) * (-1 if literal.startswith("-") else 1)

    clauses = [[number(x) for x in clause] for _, clause in axioms()]
    units = [[number(x)] for x in ("Ad", "Attack:1:1", "Member:1")]
    known = len(clauses)
    with open(lrat, "w", encoding="ascii") as file:
        at = known + len(units)
        for literals, hints in derived(steps):
            at += 1
            file.write(f"{at} {' '.join(str(number(x)) for x in literals)} 0 {' '.join(map(str, hints))} 0\n")
        file.write(f"{at + 1} 0 {known + 1} {known + 2} {known + 3} {at} 0\n")
    with open(cnf, "w", encoding="ascii") as file:
        file.write(f"p cnf {len(numbers)} {known + len(units)}\n")
        for clause in clauses + units:
            file.write(f"{' '.join(map(str, clause))} 0\n")


def small_rows(wide, narrow):
    """The rows of both tables: what stands in the first column, the framework, the answer's certificate, and how many sets."""
    abstract, rules = f"p af {wide}\n1 1\n", f"p aba {wide}\na 1\na 2\n"
    for kind, framework, counts in (("abstract", abstract, (500, 4_000, 1_000_000)), ("rules", rules, (100, 500, 1_000_000))):
        for count in counts:
            yield f"{kind}, {wide:,}: sets `w 2`", framework, "w 2\n" * count, count
    for count in (10, 100, 1_000):
        sets = "".join(f"w 2 {i}\n" for i in range(3, 3 + count))
        sides = "".join(f"s {i}\n" for i in range(1, count + 1))
        hints = f"d 0 {' '.join(str(i) for i in range(1, count + 1))}\n"
        for steps, more in (("a step `s` for each", ""), ("a step `s` for each, all named by hints", hints)):
            yield f"abstract, {narrow:,}: sets `w 2 I`, {steps}", f"p af {narrow}\n1 1\n", f"{sets}r\n{sides}{more}", count


def small(program, folder, limit):
    """Prints both tables. A row that would come after one of its kind that took longer than the limit is left out."""
    names = {part: f"{folder}/{part}" for part in ("small", "yes", "none", "sets", "told")}
    for name, text in (("yes", "YES\n"), ("none", "cert 1\nend\n")):
        Path(names[name]).write_text(text, encoding="ascii")
    slow, wrong = set(), 0
    print("| Framework and certificate | Sets | Bytes | Processor seconds | Of these to read the framework | MB |\n|---|---|---|---|---|---|")
    for kind, framework, text, count in small_rows(1_000_000, 100_000):
        if kind in slow:
            print(f"| {kind} | {count:,} | | not measured | | |")
            continue
        Path(names["small"]).write_text(framework, encoding="ascii")
        Path(names["sets"]).write_text(f"cert 1\n{text}end\n", encoding="ascii")
        check = ["check", "-p", "DS-PR", "-f", names["small"], "-a", "2", "-r", names["yes"], "-c"]
        _, _, first, read = timed(program, check + [names["none"]], names["told"])
        _, memory, status, seconds = timed(program, check + [names["sets"]], names["told"])
        told = Path(names["told"]).read_text(encoding="ascii")
        wrong += not (first == status == REJECTED and told.startswith("REJECTED "))
        size = os.path.getsize(names["sets"])
        print(f"| {kind} | {count:,} | {size:,} | {seconds:.2f} | {read:.2f} | {memory:.0f} |", flush=True)
        if seconds > limit:
            slow.add(kind)
    return wrong


def main():
    words = argparse.ArgumentParser(description=__doc__.splitlines()[0])
    words.add_argument("--steps", type=int, default=1_000_000)
    words.add_argument("--runs", type=int, default=3)
    words.add_argument("--peer")
    words.add_argument("--small", action="store_true", help="the tables of small certificates alone")
    words.add_argument("--limit", type=float, default=1.0, help="seconds past which a table's larger rows are left out")
    words.add_argument("--program", default=str(TOP / "out" / "argue"), help="the built program, else ./argue builds it")
    asked = words.parse_args()
    if asked.program == str(TOP / "out" / "argue") and os.system(f"'{TOP / 'argue'}' >/dev/null") != 0:
        sys.exit("bench: ./argue doesn't run")
    wrong = 0
    with tempfile.TemporaryDirectory() as folder:
        wrong += small(asked.program, folder, asked.limit)
        if asked.small:
            sys.exit(1 if wrong else 0)
        names = {part: f"{folder}/{part}" for part in ("af", "answer", "cert", "out", "cnf", "lrat")}
        with open(names["af"], "w", encoding="ascii") as file:
            file.write(f"p af {ARGUMENTS}\n1 1\n")
            file.writelines(f"{b} {a}\n" for b, a in map(pair, range(PAIRS)))
        with open(names["answer"], "w", encoding="ascii") as file:
            file.write("NO\n")
        write_certificate(names["cert"], asked.steps)
        size = os.path.getsize(names["cert"]) / 1e6
        print(f"{asked.steps} derived steps, {size:.0f} MB")
        check = ["check", "-p", "DC-CO", "-f", names["af"], "-a", "1", "-r", names["answer"], "-c", names["cert"]]
        calls = [("argue check", asked.program, check, "ACCEPTED\n")]
        if asked.peer:
            write_lrat(names["cnf"], names["lrat"], asked.steps)
            calls.append((os.path.basename(asked.peer), asked.peer, [names["cnf"], names["lrat"]], "s VERIFIED"))
        for name, program, given, expected in calls:
            for _ in range(asked.runs):
                seconds, memory, status, _ = timed(program, given, names["out"])
                with open(names["out"], encoding="ascii") as file:
                    told = file.read()
                right = status == 0 and told.startswith(expected)
                wrong += not right
                print(f"{name}: {seconds:.2f} s, {memory:.0f} MB, {'as expected' if right else told.strip() or status}")
    sys.exit(1 if wrong else 0)


if __name__ == "__main__":
    main()
