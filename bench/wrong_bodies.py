#!/usr/bin/env python3
"""Tries the wrong bodies of wrong-bodies/CRATE/*.edit, each of which the crate's contracts have to refuse.

    bench/wrong_bodies.py [CRATE ..]        without a name, all crates that have some

It is no gate: the few that the gate tries stand in crates/CRATE/must-fail. Run it for a crate when its contracts change. It
works on a copy, crate by crate: the libraries below are taken from what `rt ci` keeps on this machine, or proved; then each
edit is put into the copy, and the function that it changes is checked against its contract. Where an edit changes no
function (a ghost member, say), the whole crate is checked. The last line is a line for bench/RESULTS.md.
"""
import contextlib
import datetime
import importlib.machinery
import importlib.util
import os
import re
import shutil
import sys
import tempfile
from concurrent.futures import ThreadPoolExecutor

TOP = os.path.dirname(os.path.dirname(os.path.realpath(__file__)))
WRONG = os.path.join(TOP, "wrong-bodies")
FUNCTION = re.compile(r"^(\s*)(?:pub(?:\([a-z]+\))? )?(?:unsafe )?fn (\w+)")


def kit():
    """The kit's command `rt` as a module: its rules decide what an edit's try comes to."""
    command = shutil.which("rt") or "/opt/rattle/bin/rt"
    path = os.path.realpath(command)
    if not os.path.isfile(os.path.join(os.path.dirname(path), "rtlib.py")):
        path = "/opt/rattle/bin/rt"
    sys.path.insert(0, os.path.dirname(path))
    loader = importlib.machinery.SourceFileLoader("rt_command", path)
    module = importlib.util.module_from_spec(importlib.util.spec_from_loader("rt_command", loader))
    loader.exec_module(module)
    return module


def copy_of_sources(rt, room):
    """A copy of crates/, crates.txt and HANDLES without the edits that the gate tries."""
    repository = os.path.join(room, "repository")
    rt.copy_crates(TOP, repository)
    os.mkdir(os.path.join(repository, ".git"))
    for name in os.listdir(os.path.join(repository, "crates")):
        shutil.rmtree(os.path.join(repository, "crates", name, "must-fail"), ignore_errors=True)
    return repository


def build_below(rt, kept, crate, built):
    """Takes or proves each library below a crate, lowest first."""
    for library in sorted(crate.below(), key=lambda it: len(it.below())):
        if library.name in built:
            continue
        os.makedirs(f"{library.folder}/out", exist_ok=True)
        key = kept.key(library)
        is_given = kept.give(library, False, key)
        if not is_given:
            prove(library, crate)
        kept.is_built(library)
        if not is_given:
            kept.keep(library, False, key)
        built.add(library.name)


def prove(library, crate):
    """Proves and builds a library that no earlier run on this machine proved."""
    with open(os.devnull, "w") as library.out:
        if library.ci(["--jobs", "2"], False):
            raise SystemExit(f"wrong_bodies: {library.name}, below {crate.name}, is not proved")


def changed_line(text, new):
    """The index of the first line that differs."""
    old_lines, new_lines = text.split("\n"), new.split("\n")
    pairs = zip(old_lines, new_lines)
    return next((index for index, (one, other) in enumerate(pairs) if one != other), 0)


def function_of(folder, path, new):
    """The name of the function round the first changed line, with its module, or None where no function is changed."""
    with open(f"{folder}/{path}", encoding="utf-8") as file:
        text = file.read()
    lines = text.split("\n")
    for index in range(changed_line(text, new), -1, -1):
        found = FUNCTION.match(lines[index])
        if found:
            if re.match(r"^\s*(ghost|impl|pub struct|struct|enum)\b", lines[changed_line(text, new)]):
                return None
            module = os.path.relpath(path, "src").removesuffix(".rt").replace("/", "::")
            return owner(lines, index, found[1], found[2], "" if module == "lib" else module)
        if re.match(r"^}", lines[index]) and index < changed_line(text, new):
            return None
    return None


def owner(lines, index, indent, name, module):
    """The function's path below the crate: its module, its type where it is a method, and its name."""
    parts = [module] if module else []
    if indent:
        above = (re.match(r"^impl(?:<[^>]*>)? (?:\w+(?:<[^>]*>)? for )?(\w+)", lines[at]) for at in range(index, -1, -1))
        first = next((it for it in above if it), None)
        parts += [first[1]] if first and " for " not in first[0] else []
    return "::".join([*parts, name])


def judge_single_functions(rt):
    """Has the kit's rules read the last line of a check of single functions as that of a whole check."""
    whole = rt.checked

    def checked(*given):
        ran = whole(*given)
        if ran.returncode == 1:
            ran.stdout = re.sub(r"^only=\d+ proved=\d+\s*\Z", "logic=not-proved", ran.stdout, flags=re.M)
        return ran

    rt.checked = checked


def try_edit(rt, crate, edit):
    """What one edit comes to, by the kit's own words."""
    texts, why = rt.read_edit(edit, crate.folder)
    only = None
    if not why and len(texts) == 1:
        (path, new), = texts.items()
        only = function_of(crate.folder, path, new) if path.startswith("src/") else None
    flags = ["--jobs", "1", *(["--only", only] if only else [])]
    kind, said = rt.must_fail(crate, edit, flags)[:2]
    if only and kind not in (rt.REFUSED, rt.AT_LIMIT, rt.MISSED):
        kind, said = rt.must_fail(crate, edit, ["--jobs", "1"])[:2]
    return kind, said


def try_crate(rt, kept, crate, built, lanes):
    """Tries the edits of one crate, says each, and returns how many were refused and how many not."""
    build_below(rt, kept, crate, built)
    folder = os.path.join(WRONG, crate.name)
    edits = [os.path.join(folder, name) for name in sorted(os.listdir(folder)) if name.endswith(".edit")]
    with ThreadPoolExecutor(lanes) as pool:
        tried = list(pool.map(lambda edit: try_edit(rt, crate, edit), edits))
    for _kind, said in tried:
        print(said.replace("must-fail ", "wrong-bodies ", 1), flush=True)
    refused = sum(kind in (rt.REFUSED, rt.AT_LIMIT) for kind, _said in tried)
    return refused, len(edits) - refused


def main(names):
    have = sorted(os.listdir(WRONG))
    unknown = [name for name in names if name not in have]
    if unknown:
        raise SystemExit(f"wrong_bodies: wrong-bodies/ has no folder {unknown[0]}")
    rt = kit()
    # (its first call sets a signal's handler, which only the main thread may)
    rt.rtlib.guarded()
    judge_single_functions(rt)
    refused, passed, lanes = 0, [], int(os.environ.get("LANES", "2"))
    with tempfile.TemporaryDirectory(prefix="wrong-bodies-") as room:
        os.chdir(copy_of_sources(rt, room))
        rt.Crate.cuts_libraries, rt.Crate.allowed = True, rt.handles_of(os.getcwd())
        crates = rt.crates_of(os.getcwd())
        kept, built = rt.Kept(crates), set()
        for crate in [it for it in crates if it.name in (names or have)]:
            with contextlib.suppress(KeyboardInterrupt):
                taken, left = try_crate(rt, kept, crate, built, lanes)
                refused, passed = refused + taken, passed + [crate.name] * bool(left)
        os.chdir(TOP)
    day = datetime.date.today().isoformat()
    of = " ".join(names) if names else f"all {len(have)} crates"
    print(f"- {day}: wrong bodies of {of}: {refused} refused" + (f"; not refused, or not tried, in {' '.join(passed)}" if passed else ""))
    return 1 if passed else 0


if __name__ == "__main__":
    sys.exit(main(sys.argv[1:]))
