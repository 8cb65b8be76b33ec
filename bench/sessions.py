#!/usr/bin/env python3
"""Measures how many queries a second 1, 2 and 4 sessions are told, with and without sharing.

With sharing: the sessions of one run of `live`, which have one history of edits and one pool of clauses between them.
Without sharing: as many runs of `live` at the same time, each with the lines of one session, so with neither the others'
edits nor their clauses. There is no switch that turns the pool off; so what is compared is a session beside others that
share, with the same lines in a process of its own.

Three inputs, with 128 queries each:
- drawn: the framework of `bench -n 2000 -x 7` (2,000 arguments, three attacks on each drawn), with edits and queries as
  `bench` has them, on the first 64 arguments, spread over the sessions, and 100 units for each query, which most spend;
- ring: the framework of bench/live.py (2,000 arguments on a ring, 8,000 attacks between near ones), where an attack goes
  and comes again in turn, with a query for some preferred or stable set behind each;
- pigeons: all sessions ask the same hard thing: whether some stable set has an argument, where a stable set would put 7
  pigeons into 6 holes, so none does; no edits.

usage: bench/sessions.py [--program PATH] [--runs N] [--only WORD]
"""
import argparse
import os
import random
import statistics
import subprocess
import sys
import tempfile
import time
from pathlib import Path

TOP = Path(__file__).resolve().parent.parent
# As ./argue sets them.
SETTINGS = {"GLIBC_TUNABLES": "glibc.malloc.hugetlb=1:glibc.malloc.top_pad=67108864", "LD_BIND_NOW": "1", **os.environ}
SESSIONS = (1, 2, 4)
MULTIPLIER, INCREMENT, MASK = 6_364_136_223_846_793_005, 1_442_695_040_888_963_407, 2**64 - 1


def drawn():
    """The framework of `bench -n 2000 -x 7`, and edits and queries as `bench` has them."""
    count, state, attacks, groups = 2_000, 7, set(), []
    for argument in range(1, count + 1):
        draws = []
        for _ in range(3):
            state = (state * MULTIPLIER + INCREMENT) & MASK
            draws.append((state >> 32) % count + 1)
        attacks.update((attacker, argument) for attacker in draws)
        if argument <= 64:
            pair = f"{draws[0]} {argument}"
            groups.append([f"noatt {pair}", f"ask DC-CO {argument}", f"att {pair}", f"ask DS-PR {argument}"])
    return count, sorted(attacks), groups


def ring():
    """2,000 arguments on a ring with 8,000 attacks between near ones; of some of them each goes and comes again."""
    count, near, attacks, choose = 2_000, 5, set(), random.Random(1)
    while len(attacks) < 8_000:
        target = choose.randint(1, count)
        attacks.add(((target - 1 + choose.randint(-near, near)) % count + 1, target))
    groups = []
    for attacker, target in choose.sample(sorted(attacks), 64):
        pair, asked = f"{attacker} {target}", choose.randint(1, count)
        groups.append([f"noatt {pair}", f"ask DC-PR {asked}", f"att {pair}", f"ask DC-ST {asked}"])
    return count, sorted(attacks), groups


def pigeons(birds=7, holes=6):
    """A framework whose stable sets put each bird into a hole of its own: none does."""
    at = {(bird, hole): 1 + bird * holes + hole for bird in range(birds) for hole in range(holes)}
    attacks = set()
    for one, number in at.items():
        for other, target in at.items():
            if one != other and (one[0] == other[0] or one[1] == other[1]):
                attacks.add((number, target))
    last = len(at)
    for bird in range(birds):
        homeless = last + 1 + bird
        attacks.add((homeless, homeless))
        attacks.update((at[bird, hole], homeless) for hole in range(holes))
    groups = [[f"ask DC-ST {number % last + 1}", f"ask DC-ST {number % last + 1}"] for number in range(64)]
    return last + birds, sorted(attacks), groups


INPUTS = {"drawn": drawn, "ring": ring, "pigeons": pigeons}
WORDS = {"drawn": ["-b", "100"]}


def seconds_of(commands):
    """The seconds in which all these commands, started at once, are done; whether each ended with status 0; their output."""
    begin = time.perf_counter()
    running = [subprocess.Popen(words, env=SETTINGS, stdout=subprocess.PIPE, text=True) for words in commands]
    texts = [process.communicate()[0] for process in running]
    return time.perf_counter() - begin, all(process.returncode == 0 for process in running), texts


def spread(groups, sessions):
    """The lines of each session, where the groups are dealt out in turn."""
    return [[line for group in groups[at::sessions] for line in group] for at in range(sessions)]


def commands_for(program, folder, framework, dealt, together, words):
    """The runs of these lines: one run of all sessions, or one run for each."""
    numbered = [[(at + 1 if together else 1, line) for line in lines] for at, lines in enumerate(dealt)]
    parts = [sum(numbered, [])] if together else numbered
    commands = []
    for at, part in enumerate(parts):
        script = Path(folder, f"script{at}")
        script.write_text("".join(f"{session} {line}\n" for session, line in part), encoding="ascii")
        commands.append([program, "live", "-f", str(framework), "-s", str(script), *words])
    return commands


def measured(program, folder, made, sessions, runs, words):
    """The median seconds of runs with and without sharing, taken in turn, and whether all went well."""
    count, attacks, groups = made
    framework = Path(folder, "framework.af")
    framework.write_text(f"p af {count}\n" + "".join(f"{b} {a}\n" for b, a in attacks), encoding="ascii")
    dealt, times, well = spread(groups, sessions), {True: [], False: []}, True
    asked = sum(line.startswith("ask") for lines in dealt for line in lines)
    for _ in range(runs):
        for together in (True, False):
            took, ended, texts = seconds_of(
                commands_for(program, folder, framework, dealt, together, words)
            )
            told = sum(line in ("YES", "NO", "UNKNOWN") for text in texts for line in text.splitlines())
            well = well and ended and told == asked
            times[together].append(took)
    return statistics.median(times[True]), statistics.median(times[False]), asked, well


def main():
    words = argparse.ArgumentParser(description=__doc__.splitlines()[0])
    words.add_argument("--program", default=str(TOP / "out" / "argue"))
    words.add_argument("--runs", type=int, default=5)
    words.add_argument("--only", default="", choices=["", *INPUTS])
    given = words.parse_args()
    print("queries a second, the medians of runs in turn; in brackets how many times those of one session")
    bad = False
    for name, make in INPUTS.items():
        if given.only not in ("", name):
            continue
        made, first = make(), None
        for sessions in SESSIONS:
            with tempfile.TemporaryDirectory() as folder:
                shared, alone, asked, well = measured(
                    given.program, folder, made, sessions, given.runs, WORDS.get(name, [])
                )
            first = first or (asked / shared, asked / alone)
            bad = bad or not well
            print(
                f"{name}, {sessions} sessions: shared {asked / shared:.1f} ({asked / shared / first[0]:.2f}), "
                f"not shared {asked / alone:.1f} ({asked / alone / first[1]:.2f})" + ("" if well else "; not all told"),
                flush=True,
            )
    sys.exit(1 if bad else 0)


if __name__ == "__main__":
    main()
