#!/usr/bin/env python3
"""Runs a script of four sessions with less and less memory, and checks how each run ends.

The system refuses memory from a limit on the process's addresses on. A run has to end with the transcript and a
certificate for each answer, or with status 5, no text, and the certificate's file as it was: whichever session was
refused, nothing of the others is written. The script asks four sessions for the stable sets of 6 pigeons in 5 holes,
which takes some megabytes of steps. Which allocation is refused depends on the order of the turns, so each limit is tried
several times.

usage: bench/memory.py [--program PATH] [--runs N] [--step KB]
"""
import argparse
import os
import resource
import subprocess
import sys
import tempfile
from pathlib import Path

from sessions import pigeons

TOP = Path(__file__).resolve().parent.parent
REFUSED = ""  # nothing is written


def ended(program, folder, limit):
    """How a run with so many bytes of addresses ends: its status, its text, and the certificate's file."""
    shown = Path(folder, "shown")
    shown.write_text("old\n", encoding="ascii")
    words = [program, "live", "-f", str(Path(folder, "framework")), "-s", str(Path(folder, "script")), "-c", str(shown)]
    done = subprocess.run(
        words,
        env={"LD_BIND_NOW": "1", **os.environ},
        stdout=subprocess.PIPE,
        text=True,
        preexec_fn=lambda: resource.setrlimit(resource.RLIMIT_AS, (limit, limit)),
    )
    return done.returncode, done.stdout, shown.read_text(encoding="ascii")


def main():
    words = argparse.ArgumentParser(description=__doc__.splitlines()[0])
    words.add_argument("--program", default=str(TOP / "out" / "argue"))
    words.add_argument("--runs", type=int, default=5, help="how often each limit is tried")
    words.add_argument("--step", type=int, default=2_000, help="by how many kilobytes the limit rises")
    given = words.parse_args()
    count, attacks, groups = pigeons(6, 5)
    counts, wrong = {}, []
    with tempfile.TemporaryDirectory() as folder:
        Path(folder, "framework").write_text(f"p af {count}\n" + "".join(f"{b} {a}\n" for b, a in attacks), encoding="ascii")
        lines = [f"{at % 4 + 1} {line}\n" for at, group in enumerate(groups[:8]) for line in group]
        Path(folder, "script").write_text("".join(lines), encoding="ascii")
        whole = ended(given.program, folder, resource.RLIM_INFINITY)
        limit, ample = 2_000_000, 0
        while ample < 3 and limit < 4_000_000_000:
            ends = [ended(given.program, folder, limit) for _ in range(given.runs)]
            for status, text, shown in ends:
                counts[status] = counts.get(status, 0) + 1
                refused = status == 5 and text == REFUSED and shown == "old\n"
                done = status == 0 and text.count("NO") == whole[1].count("NO") and shown.count("end\n") == len(lines)
                # Below some megabytes the loader itself finds no room, and the program never begins.
                unborn = status in (127, -11, -6) and not text and shown == "old\n" and limit < 40_000_000
                if not (refused or done or unborn):
                    wrong.append((limit, status, text[:200], shown[:80]))
            ample = ample + 1 if all(end[0] == 0 for end in ends) else 0
            limit += given.step * 1_000
    print("runs by status: " + ", ".join(f"{status}: {count}" for status, count in sorted(counts.items())))
    for limit, status, text, shown in wrong:
        print(f"{limit} bytes: status {status}, {text!r}, {shown!r}")
    if whole[0] != 0 or 5 not in counts:
        wrong.append((0, whole[0], "", ""))
        print("no run wanted memory, or the first one did")
    sys.exit(1 if wrong else 0)


if __name__ == "__main__":
    main()
