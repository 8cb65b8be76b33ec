#!/usr/bin/env python3
"""Counts, for each crate of crates.txt, the ways down from it to crates below.

`rt` works out the sum of a crate's sources anew for each such way, and reads all files of a crate for each: some 1.6 ms.
The gate does so twice for each library. A crate that passes on what its callers need keeps the ways few
(docs/ARCHITECTURE.md).

usage: bench/ways.py [FILE]
"""
import sys
from functools import cache
from pathlib import Path

TOP = Path(__file__).resolve().parent.parent


def main():
    file = sys.argv[1] if len(sys.argv) > 1 else TOP / "crates.txt"
    rows = [line.partition(":") for line in Path(file).read_text().splitlines() if line and line[0] != "#"]
    below = {name: [it for it in used.split()] for name, _, used in rows}

    @cache
    def ways(name):
        return 1 + sum(ways(it) for it in below[name] if it in below)

    for name in sorted(below, key=ways):
        print(f"{ways(name):>9,} {name}")
    print(f"{sum(map(ways, below)):>9,} in all")


if __name__ == "__main__":
    main()
