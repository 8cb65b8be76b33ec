#!/usr/bin/env python3
"""What the gate costs, in processor seconds by crate and part.

    bench/gate.py run LOG [WORD ..]     runs `rt ci WORD ..` at the top, and adds a line to LOG for each call of the prover
    bench/gate.py table LOG ..          prints the table of such logs, dearest crate first, and the sums

A line of a log is: crate, part, processor seconds, wall seconds, the most memory in MB. The parts are proof (a library from
nothing), program (a program's proof), compilers (both, of a program), tests (proof and build), seed (a crate with edits is
proved once more), edits. What an earlier run keeps isn't done again, so for the whole gate give `--anew`, or add the logs of
runs over the same sources. Two gates are compared side by side, each pinned to half of the processors.
"""
import collections
import os
import runpy
import subprocess
import sys
import time

RATTLE = "/opt/rattle/bin/rattle"
COMMAND = "/opt/rattle/bin/rt"
PARTS = ["proof", "program", "compilers", "tests", "seed", "edits"]


def part_of(words, folder):
    """Which part of the gate a call of the prover belongs to, or None for a layout check."""
    if words[0] not in ("check", "build"):
        return None
    if "--crate-checked" in words:
        return "compilers"
    if "--test" in words:
        return "tests"
    if "--incremental" in words:
        return "edits"
    return "proof" if words[0] == "build" else "program"


def call(log, words):
    """Runs the prover on these words, and adds its line to the log."""
    begun = time.monotonic()
    child = os.spawnv(os.P_NOWAIT, RATTLE, [RATTLE, *words])
    _, status, used = os.wait4(child, 0)
    part = part_of(words, os.getcwd())
    if part:
        name = words[words.index("--crate-name") + 1] if "--crate-name" in words else "-"
        seconds = used.ru_utime + used.ru_stime
        line = f"{name} {part} {seconds:.1f} {time.monotonic() - begun:.1f} {used.ru_maxrss // 1024}\n"
        with open(log, "a", encoding="utf-8") as file:
            file.write(line)
    if os.WIFSIGNALED(status):
        os.kill(os.getpid(), os.WTERMSIG(status))
    return os.waitstatus_to_exitcode(status)


def run(log, words):
    """Runs `rt ci` in this process, with this script in the prover's place."""
    real, here = subprocess.Popen, os.path.realpath(__file__)

    class Timed(real):
        def __init__(self, command, *given, **named):
            if isinstance(command, (list, tuple)) and RATTLE in command:
                at = list(command).index(RATTLE)
                command = [*command[:at], sys.executable, here, "call", os.path.abspath(log), *command[at + 1 :]]
            super().__init__(command, *given, **named)

    subprocess.Popen = Timed
    sys.argv = [COMMAND, "ci", *words]
    sys.path.insert(0, os.path.dirname(COMMAND))
    runpy.run_path(COMMAND, run_name="__main__")


def read(logs):
    """The lines of the logs, the first check of a crate's edits told apart as its seed."""
    seen = set()
    for log in logs:
        with open(log, encoding="utf-8") as file:
            for line in file:
                name, part, seconds, _, memory = line.split()
                if part == "edits" and (log, name) not in seen:
                    seen.add((log, name))
                    part = "seed"
                yield name, part, float(seconds), int(memory)


def table(logs):
    """Prints the seconds of each crate by part, and the sums."""
    by_crate, most = collections.defaultdict(collections.Counter), 0
    for name, part, seconds, memory in read(logs):
        by_crate[name][part] += seconds
        most = max(most, memory)
    print("| Crate | " + " | ".join(PARTS) + " | together |\n|---|" + "---|" * (len(PARTS) + 1))
    for name, parts in sorted(by_crate.items(), key=lambda it: -sum(it[1].values())):
        cells = [f"{parts[part]:.0f}" if parts[part] else "" for part in PARTS]
        print(f"| `{name}` | " + " | ".join(cells) + f" | {sum(parts.values()):.0f} |")
    sums = collections.Counter()
    for parts in by_crate.values():
        sums.update(parts)
    print("| all | " + " | ".join(f"{sums[part]:.0f}" for part in PARTS) + f" | {sum(sums.values()):.0f} |")
    print(f"\nMost memory of one call: {most / 1024:.1f} GB.")


def main(words):
    if len(words) >= 2 and words[0] == "call":
        return call(words[1], words[2:])
    if len(words) >= 2 and words[0] == "run":
        return run(words[1], words[2:])
    if len(words) >= 2 and words[0] == "table":
        return table(words[1:])
    print(__doc__, end="", file=sys.stderr)
    return 2


if __name__ == "__main__":
    sys.exit(main(sys.argv[1:]))
