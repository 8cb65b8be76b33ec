#!/usr/bin/env python3
"""Checks that the documents fit the crates.

1. The rooms of crates.txt (its comment lines) are the headings of docs/ARCHITECTURE.md, in the same order, and each
   crate stands in the same room in both, in the same order.
2. No use goes up: each crate of crates.txt uses only crates that come before it.
3. Each name in backticks in a document exists: a crate, a file, a word of the crates' code, a command, or a word of
   ALLOWED below. A name is a single word, or a word with an underscore, a `::` or a capital inside.
4. Each link within the repository leads to a file and, after `#`, to a heading of it.
5. No line of a document is longer than 120 columns.

It prints what doesn't fit, a line each, and ends with status 1 where something doesn't.

With --sort it first writes the lines of crates.txt in the order of the map, each room under its heading; a crate that
the map lacks comes last.

usage: bench/rooms.py [--sort] [--crates FILE]
"""
import argparse
import re
import sys
from pathlib import Path

TOP = Path(__file__).resolve().parent.parent
DOCUMENTS = ["README.md", "CONTRIBUTING.md", "examples/README.md", "bench/RESULTS.md", *sorted(
    str(it.relative_to(TOP)) for it in (TOP / "docs").glob("*.md"))]

# Words that aren't in the crates' code: commands and their options, words of other programs, of the kit and of its
# prover's answers, and parts of texts.
ALLOWED = set("""
rt assert_eq argue clap perf gdb strace callgrind taskset nice setsid minisat lrat_check rattle sha256sum cp timeout kill gcc
memchr smallvec indexmap boxcar crossbeam_utils atomic_table atomic_blocks thiserror
grind omega cc search rw absurd refl split ap Yields ok_part Lts start_lib grep
GLIBC_TUNABLES LD_BIND_NOW
""".split())


def code_of(path):
    """The text of a source file without its comments."""
    text = path.read_text(errors="replace")
    mark = r"//.*" if path.suffix == ".rt" else r"(?m)^\s*-- .*|\s-- .*"
    return re.sub(mark, "", text)


def known_words():
    words, files = set(ALLOWED), set()
    for path in (TOP / "crates").rglob("*"):
        if "out" in path.parts or not path.is_file():
            continue
        files.update(part for part in path.relative_to(TOP / "crates").parts)
        if path.suffix == ".antt":
            files.add(path.stem)
        if path.suffix in (".rt", ".antt"):
            words.update(re.findall(r"[A-Za-z_][A-Za-z0-9_]*", code_of(path)))
    for folder in ("bench", "client", "completions", "dist", "docs", "examples", "wrong-bodies", "."):
        if (TOP / folder).is_dir():
            files.update(name for it in (TOP / folder).iterdir() for name in (it.name, it.stem))
    words.update(re.findall(r"[A-Za-z_]+", (TOP / "argue").read_text()))
    return words, files


def spans(text):
    """The texts in backticks outside of blocks, each with its line."""
    blocked = False
    for number, line in enumerate(text.splitlines(), 1):
        if line.lstrip().startswith("```"):
            blocked = not blocked
        if not blocked:
            for it in re.findall(r"`([^`]+)`", line):
                yield number, it


def is_there(path):
    return (TOP / path).exists() or any((TOP / "crates").glob(f"*/{path}"))


def is_name(word):
    return "_" in word.strip("_") or bool(re.match(r"[A-Z][a-z0-9]+[A-Z]", word))


def lacking(span, words, files):
    """The names of a span that nothing bears."""
    bare = span.removeprefix("./")
    if re.fullmatch(r"[0-9a-f]{8}", bare):  # a commit
        return []
    if re.fullmatch(r"[\w./-]+\.(rt|antt|md|py|txt|svg|af|aba|script)|[\w.-]+(/[\w.-]+)*/", bare):
        if re.search(r"\b[A-Z]{3,}\b", bare.split(".")[0]) and not is_there(bare):
            return []
        return [] if is_there(bare) or bare.strip("/") in files else [span]
    if re.fullmatch(r"[A-Za-z_]\w+", bare):
        return [] if bare in words or bare in files else [span]
    found = [it for it in re.findall(r"[A-Za-z_][A-Za-z0-9_]*", bare) if is_name(it)]
    return [it for it in found if it not in words and it not in files]


def rooms_of_crates(path):
    rooms = []
    for line in Path(path).read_text().splitlines():
        if line.startswith("# "):
            rooms.append((line[2:].rstrip("."), []))
        elif ":" in line:
            name, _, used = line.partition(":")
            rooms[-1][1].append((name, used.split()))
    return [it for it in rooms if it[1]]


def rooms_of_map():
    rooms = []
    for line in (TOP / "docs/ARCHITECTURE.md").read_text().splitlines():
        if line.startswith("## "):
            rooms.append((line[3:], []))
        elif rooms and (crate := re.match(r"- `(\w+)`: ", line)):
            rooms[-1][1].append(crate[1])
    return [it for it in rooms if it[1]]


def sort_crates(path):
    lines = path.read_text().splitlines()
    left = {it.partition(":")[0]: it for it in lines if it and it[0] != "#"}
    sorted_lines = [lines[0]] if lines[0].startswith("#") else []
    for room, names in rooms_of_map():
        sorted_lines += [f"# {room}.", *(left.pop(it) for it in names if it in left)]
    path.write_text("\n".join([*sorted_lines, *left.values()]) + "\n")


def check_rooms(crates):
    ours, theirs = rooms_of_crates(crates), rooms_of_map()
    if [it[0] for it in ours] != [it[0] for it in theirs]:
        yield f"rooms of crates.txt {[it[0] for it in ours]}, of the map {[it[0] for it in theirs]}"
    mapped = dict(theirs)
    for room, rows in ours:
        names, there = [it[0] for it in rows], mapped.get(room, [])
        for name in names:
            if name not in there:
                yield f"crates.txt: {name} stands in '{room}', and not so in the map"
        for name in there:
            if name not in names:
                yield f"docs/ARCHITECTURE.md: {name} stands in '{room}', and not so in crates.txt"
        if sorted(names) == sorted(there) and names != there:
            yield f"'{room}' has another order in the map"
    rows = [it for _, part in ours for it in part]
    ours_alone, before = {it[0] for it in rows}, set()
    for name, used in rows:
        yield from (f"crates.txt: {name} uses {it}, which comes after it" for it in used
                    if it in ours_alone and it not in before)
        before.add(name)


def anchors(path):
    """The anchors of a document's headings, as the usual viewers make them."""
    heads = re.findall(r"(?m)^#+ (.*)$", path.read_text())
    return {re.sub(r"[^\w\- ]", "", it.lower()).replace(" ", "-") for it in heads}


def check_links(document, text):
    for target in re.findall(r"\]\(([^)\s]+)\)", text):
        name, _, anchor = target.partition("#")
        if "://" in target:
            continue
        path = (TOP / document).parent / name if name else TOP / document
        if not path.exists():
            yield f"{document}: no file {target}"
        elif anchor and anchor not in anchors(path):
            yield f"{document}: no heading {target}"


def check_documents():
    words, files = known_words()
    for document in DOCUMENTS:
        path = TOP / document
        if not path.exists():
            continue
        text = path.read_text()
        yield from check_links(document, text)
        for number, span in spans(text):
            yield from (f"{document}:{number}: nothing bears the name {it}" for it in lacking(span, words, files))
        for number, line in enumerate(text.splitlines(), 1):
            if len(line) > 120:
                yield f"{document}:{number}: {len(line)} columns"


def main():
    words = argparse.ArgumentParser(description="Checks that the documents fit the crates.")
    words.add_argument("--sort", action="store_true")
    words.add_argument("--crates", type=Path, default=TOP / "crates.txt")
    asked = words.parse_args()
    if asked.sort:
        sort_crates(asked.crates)
    found = [*check_rooms(asked.crates), *check_documents()]
    print("\n".join(found) if found else "rooms: all fits")
    sys.exit(1 if found else 0)


if __name__ == "__main__":
    main()
