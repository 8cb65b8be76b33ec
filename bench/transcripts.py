#!/usr/bin/env python3
"""Runs scripts many times beside a load, and checks that each transcript is one of those that are allowed.

The scripts are those of the rows of `live` in crates/argue_rows/data/rows.txt, those of examples/, and some of several
sessions that stand here. A transcript is allowed where some order of the turns explains it. What is checked: the
history has each session's taken groups of edits in the order of its commands, each whole and at the number that its
reply tells;
the numbers behind `at` never fall within a session; a refused group is refused so, at its first refused edit, on the
framework after as many entries; the rules that come have the numbers that the reply tells; and each answer is right on
the framework after as many entries, by the definitions, over all subsets of its arguments or assumptions. So the
frameworks must be small. A script of one session has the same transcript in every run, which is checked too.

usage: bench/transcripts.py [--program PATH] [--runs N] [--load N] [--only WORD]
"""
import argparse
import itertools
import os
import subprocess
import sys
import tempfile
from pathlib import Path
from typing import NamedTuple

TOP = Path(__file__).resolve().parent.parent
# As ./argue sets them.
SETTINGS = {"GLIBC_TUNABLES": "glibc.malloc.hugetlb=1:glibc.malloc.top_pad=67108864", "LD_BIND_NOW": "1", **os.environ}
LAST_NUMBER = 1_000_000
FEW = 14  # arguments or assumptions of which all subsets are looked at



def grouped(session, *edits):
    """The lines of a group of edits."""
    return "".join(f"{session} {words}\n" for words in ("begin", *edits, "end"))


# Scripts of several sessions: a name, the framework, the script, and the words behind it.
SEVERAL = [
    ("two add one attack", "p af 2\n", "1 att 1 2\n2 att 1 2\n", []),
    ("one asks meanwhile", "p af 2\n", "1 att 1 2\n1 ask SE-GR\n2 ask SE-GR\n2 ask EE-PR\n", []),
    (
        "eight sessions at one attack",
        "p af 3\n1 2\n2 1\n2 3\n",
        "".join(
            f"{s} noatt 2 1\n{s} ask EE-PR\n{s} att 2 1\n{s} ask DC-ST 3\n{s} noatt 1 2\n{s} ask SE-ID\n{s} att 1 2\n"
            for s in range(1, 9)
        ),
        [],
    ),
    (
        "eight sessions, of which one is refused everything",
        "p af 4\n1 2\n2 1\n2 3\n3 4\n",
        "".join(
            f"{s} noatt 2 3\n{s} ask DS-PR 4\n{s} att 2 3\n{s} ask EE-CO\n"
            if s != 5
            else f"{s} att 9 1\n{s} ask DC-CO 9\n{s} asm 1 0\n{s} noarg 7\n{s} arg 0\n{s} norule 1\n"
            for s in range(1, 9)
        ),
        [],
    ),
    (
        "four sessions with rules",
        "p aba 5\na 1\na 2\na 3\nc 1 4\nc 2 5\nr 4 2\nr 5 1\n",
        "".join(
            f"{s} rule 4 3\n{s} ask EE-PR\n{s} norule 3\n{s} con 3 5\n{s} ask DC-PR 4\n{s} con 3 0\n{s} ask SE-ST\n"
            for s in range(1, 5)
        ),
        [],
    ),
    (
        "four sessions with several contraries",
        "p aba 6\na 1\na 2\na 3\nc 1 4\nc 1 5\nc 2 1\nr 4 2\nr 5 3\nr 6 1\n",
        "".join(
            f"{s} delcon 1 5\n{s} ask EE-PR\n{s} addcon 1 3\n{s} ask DS-PR 6\n{s} addcon 3 {s}\n{s} delcon 1 4\n"
            f"{s} ask EE-CO\n{s} con 1 5\n{s} ask SE-ST\n{s} addcon 1 4\n{s} delcon 3 {s}\n{s} delcon 1 3\n"
            for s in range(1, 5)
        ),
        [],
    ),
    (
        "four sessions that ask for stable sets of rings",
        "p af 9\n1 2\n2 3\n3 1\n4 5\n5 6\n6 4\n7 8\n8 9\n9 7\n",
        "".join(
            f"{s} ask SE-ST\n{s} noatt {s} {s + 1 if s % 3 else s - 2}\n{s} ask EE-SST\n{s} ask DC-ST {s}\n"
            for s in range(1, 5)
        ),
        [],
    ),
    (
        "four sessions without units",
        "p af 4\n1 2\n2 1\n1 3\n2 3\n3 4\n",
        "".join(f"{s} ask SE-PR\n{s} noatt {s} 3\n{s} ask DS-PR 4\n{s} ask SE-GR\n" for s in range(1, 5)),
        ["-b", "0"],
    ),
    (
        "eight sessions with groups of attacks that conflict",
        # between groups one of 1 and 2 attacks the other, so the grounded set has one of them
        "p af 4\n1 2\n1 3\n2 4\n",
        "".join(
            grouped(s, f"noatt {b} {a}", f"att {a} {b}") + f"{s} ask SE-GR\n"
            + grouped(s, f"noatt {a} {b}", f"att {s % 4 + 1} 3", f"att {b} {a}") + f"{s} ask DS-PR 3\n"
            + grouped(s, f"att {b} {a}", f"noatt {a} {b}", f"noatt {a} {b}") + f"{s} ask EE-CO\n"
            for s in range(1, 9)
            for b, a in [(1, 2) if s % 2 else (2, 1)]
        ),
        [],
    ),
    (
        "eight sessions with groups of arguments that conflict",
        "p af 3\n1 2\n2 1\n2 3\n",
        "".join(
            grouped(s, f"arg {s % 3 + 4}", f"att {s % 3 + 4} 2", "noatt 2 3") + f"{s} ask EE-PR\n"
            + grouped(s, "att 2 3", f"noarg {s % 3 + 4}") + f"{s} ask DC-ST 3\n"
            + grouped(s, "noarg 1", "arg 1", "att 1 2", "att 2 1") + f"{s} ask SE-ID\n"
            + grouped(s, f"att {s} {s}") + f"{s} noatt {s} {s}\n"
            for s in range(1, 9)
        ),
        [],
    ),
    (
        "eight sessions with groups of rules that conflict",
        # a rule and its exception: whoever asks sees both or neither, so 3 is never derived
        "p aba 6\na 1\nc 1 5\nr 2\nr 4\n",
        "".join(
            f"{s} begin\n{s} rule 3 1 2\n{s % 8 + 1} ask DC-GR 3\n{s} rule 5 4\n{s} end\n"
            + grouped(s, "rule 6", "norule 1000") + f"{s} ask SE-ST\n"
            + grouped(s, f"norule {2 * s + 1}", f"norule {2 * s + 2}") + f"{s} ask DC-GR 3\n"
            + grouped(s, "rule 6 1", "noasm 1", "asm 1 5", "asm 6 0") + f"{s} ask EE-PR\n"
            + grouped(s, "noasm 1", "asm 1 0", "addcon 1 5") + f"{s} rule 6 {s % 6 + 1}\n"
            for s in range(1, 9)
        ),
        [],
    ),
]


class Refused(Exception):
    """The framework refuses an edit or a query, with these words."""


def in_range(number, low, high):
    if not low <= number <= high:
        raise Refused(f"OutOfRange {number}")


class Af:
    """An abstract framework."""

    tasks = {"CO", "GR", "PR", "ST", "SST", "ID", "STG"}

    def __init__(self, live, attacks):
        self.live, self.attacks = frozenset(live), frozenset(attacks)

    def value(self):
        return self.live, self.attacks

    def known(self, number):
        if number not in self.live:
            raise Refused(f"UnknownArgument {number}")

    def edited(self, words):
        """The framework behind an edit, and what the reply adds to OK."""
        name, numbers = words[0], [int(word) for word in words[1:]]
        if name == "arg":
            in_range(numbers[0], 1, LAST_NUMBER)
            if numbers[0] in self.live:
                raise Refused("ArgumentIsThere")
            return Af(self.live | {numbers[0]}, self.attacks), ""
        if name == "noarg":
            in_range(numbers[0], 1, LAST_NUMBER)
            self.known(numbers[0])
            return Af(self.live - {numbers[0]}, {p for p in self.attacks if numbers[0] not in p}), ""
        if name not in ("att", "noatt"):
            raise Refused("WrongKind")
        pair = tuple(numbers)
        for number in pair:
            in_range(number, 1, LAST_NUMBER)
        for number in pair:
            self.known(number)
        if name == "att":
            if pair in self.attacks:
                raise Refused("AttackIsThere")
            return Af(self.live, self.attacks | {pair}), ""
        if pair not in self.attacks:
            raise Refused("NoSuchAttack")
        return Af(self.live, self.attacks - {pair}), ""

    def asked(self, number):
        self.known(number)

    def members(self):
        return self.live

    def accepts(self, chosen, number):
        return number in chosen

    def attacked(self, chosen):
        return {target for attacker, target in self.attacks if attacker in chosen}

    def defends(self, chosen, beaten, member):
        return all(attacker in beaten for attacker, target in self.attacks if target == member)


def only(contrary):
    """The contraries where this one is the only one, or 0, and none is there."""
    return frozenset([contrary] if contrary else [])


class Aba:
    """A flat framework of assumptions, with the contraries of each."""

    tasks = {"CO", "GR", "PR", "ST"}

    def __init__(self, atoms, contraries, rules, following):
        self.atoms, self.contraries, self.rules, self.following = atoms, contraries, rules, following

    def value(self):
        return self.atoms, frozenset(self.contraries.items()), frozenset(self.rules.values())

    def edited(self, words):
        name, numbers = words[0], [int(word) for word in words[1:]]
        contraries, rules = dict(self.contraries), dict(self.rules)
        heads = {head for head, _ in rules.values()}
        if name == "asm":
            in_range(numbers[0], 1, self.atoms)
            in_range(numbers[1], 0, self.atoms)
            if numbers[0] in contraries:
                raise Refused("AssumptionIsThere")
            if numbers[0] in heads:
                raise Refused(f"NotFlat {numbers[0]}")
            contraries[numbers[0]] = only(numbers[1])
        elif name == "noasm":
            in_range(numbers[0], 1, self.atoms)
            if numbers[0] not in contraries:
                raise Refused(f"UnknownAssumption {numbers[0]}")
            del contraries[numbers[0]]
        elif name == "con":
            in_range(numbers[0], 1, self.atoms)
            in_range(numbers[1], 0, self.atoms)
            if numbers[0] not in contraries:
                raise Refused(f"UnknownAssumption {numbers[0]}")
            contraries[numbers[0]] = only(numbers[1])
        elif name in ("addcon", "delcon"):
            for number in numbers:
                in_range(number, 1, self.atoms)
            if numbers[0] not in contraries:
                raise Refused(f"UnknownAssumption {numbers[0]}")
            if (numbers[1] in contraries[numbers[0]]) == (name == "addcon"):
                raise Refused("ContraryIsThere" if name == "addcon" else "NoSuchContrary")
            contraries[numbers[0]] ^= {numbers[1]}
        elif name == "rule":
            for number in numbers:
                in_range(number, 1, self.atoms)
            if numbers[0] in contraries:
                raise Refused(f"NotFlat {numbers[0]}")
            rules[self.following] = numbers[0], frozenset(numbers[1:])
            return Aba(self.atoms, contraries, rules, self.following + 1), f" rule {self.following}"
        elif name == "norule":
            in_range(numbers[0], 1, LAST_NUMBER)
            if numbers[0] not in rules:
                raise Refused(f"NoSuchRule {numbers[0]}")
            del rules[numbers[0]]
        else:
            raise Refused("WrongKind")
        return Aba(self.atoms, contraries, rules, self.following), ""

    def asked(self, number):
        if not 1 <= number <= self.atoms:
            raise Refused(f"UnknownAtom {number}")

    def members(self):
        return frozenset(self.contraries)

    def closure(self, chosen):
        derived = set(chosen)
        while True:
            more = {head for head, body in self.rules.values() if body <= derived} - derived
            if not more:
                return derived
            derived |= more

    def accepts(self, chosen, number):
        return number in self.closure(chosen)

    def attacked(self, chosen):
        derived = self.closure(chosen)
        return {a for a, against in self.contraries.items() if against & derived}

    def defends(self, chosen, beaten, member):
        """Whether the set attacks each set that attacks the member: that none which it doesn't attack derives a
        contrary of it."""
        return self.contraries[member].isdisjoint(self.closure(set(self.contraries) - beaten))


def is_within(smaller, sets):
    return any(smaller < other for other in sets)


def extensions(framework, cache={}):
    """The extensions of each semantics, and the admissible sets, by the definitions over all subsets."""
    if framework.value() in cache:
        return cache[framework.value()]
    members = sorted(framework.members())
    if len(members) > FEW:
        raise SystemExit(f"{len(members)} arguments or assumptions are too many")
    admissible, complete, stable, ranges = [], [], [], {}  # ranges of all sets without conflict
    for size in range(len(members) + 1):
        for chosen in map(frozenset, itertools.combinations(members, size)):
            beaten = framework.attacked(chosen)
            if beaten & chosen:
                continue
            ranges[chosen] = chosen | beaten
            if set(members) - beaten <= chosen:
                stable.append(chosen)
            defended = {member for member in members if framework.defends(chosen, beaten, member)}
            if chosen <= defended:
                admissible.append(chosen)
                if defended <= chosen:
                    complete.append(chosen)
    preferred = [chosen for chosen in admissible if not is_within(chosen, admissible)]
    covered = [ranges[chosen] for chosen in admissible]
    semi_stable = [chosen for chosen in admissible if not is_within(ranges[chosen], covered)]
    stage = [chosen for chosen, reach in ranges.items() if not is_within(reach, ranges.values())]
    shared = [chosen for chosen in admissible if all(chosen <= other for other in preferred)]
    found = {
        "AD": admissible,
        "CO": complete,
        "GR": [min(complete, key=len)],
        "PR": preferred,
        "ST": stable,
        "SST": semi_stable,
        "ID": [max(shared, key=len)],
        "STG": stage,
    }
    cache[framework.value()] = found
    return found


def wrong_answer(framework, words, lines):
    """What is wrong with the lines that answer a query, or None."""
    problem, semantics = words[0].split("-")
    number = int(words[1]) if len(words) > 1 else None
    try:
        if semantics not in framework.tasks:
            raise Refused("TaskNotForKind")
        if number is not None:
            framework.asked(number)
    except Refused as refused:
        return None if lines == [f"REFUSED {refused}"] else f"not REFUSED {refused}"
    all_sets = extensions(framework)
    sets = [frozenset(int(word) for word in line.split()[1:]) for line in lines if line.split()[:1] == ["w"]]
    verdict = [line for line in lines if line.split()[:1] != ["w"]]
    found = all_sets[semantics]
    if problem == "EE":
        right = (verdict == [] and set(sets) == set(found) and len(sets) == len(found)) if found else lines == ["NO"]
        return None if right else f"not all of {found}"
    if problem == "SE":
        right = (verdict == [] and len(sets) == 1 and sets[0] in found) if found else lines == ["NO"]
        return None if right else f"none of {found}"
    holding = [chosen for chosen in found if framework.accepts(chosen, number)]
    yes = bool(holding) if problem == "DC" else len(holding) == len(found)
    if verdict != ["YES" if yes else "NO"]:
        return f"not {'YES' if yes else 'NO'}"
    if len(sets) > 1:
        return "two sets"
    for chosen in sets:
        fits = all_sets["AD"] if semantics in ("CO", "PR") and problem == "DC" else found
        if chosen not in fits or framework.accepts(chosen, number) != (problem == "DC"):
            return f"{sorted(chosen)} shows nothing"
    return None


def replies_of(text):
    """The replies of each session, as (front, lines), and the words of each line of the history."""
    sessions, history, into = {}, [], None
    for line in text.splitlines():
        words = line.split()
        if words[:1] == ["session"]:
            into = sessions.setdefault(int(words[1]), [])
        elif line == "history":
            into = None
        elif into is None:
            history.append(words)
        elif words[:1] == ["at"]:
            into.append((int(words[1]), []))
        else:
            into[-1][1].append(line)
    return sessions, history


def plain(words):
    """An edit as a history writes it: without leading zeros, and a rule's body in order."""
    numbers = [int(word) for word in words[1:]]
    if words[0] == "rule":
        numbers = numbers[:1] + sorted(set(numbers[1:]))
    return [words[0], *map(str, numbers)]


class Command(NamedTuple):
    """What a session does: a query, or edits that stand between `begin` and `end` or by themselves."""

    session: int
    rows: list
    is_group: bool

    def is_query(self):
        return self.rows[0][0] == "ask"

    def __str__(self):
        return "; ".join(" ".join(words) for words in self.rows)


def commands_of(rows):
    """The commands of lines, each a session and words, in the order of their last lines."""
    commands, groups = [], {}
    for session, words in rows:
        if words == ["begin"]:
            groups[session] = []
        elif words == ["end"]:
            commands.append(Command(session, groups.pop(session), True))
        elif session in groups:
            groups[session].append(words)
        else:
            commands.append(Command(session, [words], False))
    return commands


def script_of(text):
    """The commands of a script."""
    rows = [line.split() for line in text.splitlines()]
    return commands_of([(int(row[0]), row[1:]) for row in rows if row and not row[0].startswith("#")])


def entries_of(history):
    """The entries of a history, or None where its lines are none: a group of one stands by itself, and no line of
    another session stands among those of a group."""
    rows = [(int(words[0]), words[1:]) for words in history]
    entries = commands_of(rows)
    again = []
    for entry in entries:
        long = len(entry.rows) > 1
        again += [(entry.session, ["begin"])] * long + [(entry.session, edit) for edit in entry.rows]
        again += [(entry.session, ["end"])] * long
    return entries if again == rows else None


class GroupRefused(Exception):
    """The framework refuses an edit of a group: the place of the edit, from 1, and the words."""


def changed(framework, edits):
    """The framework behind the edits, and what the reply adds to OK."""
    added = ""
    for at, words in enumerate(edits, 1):
        try:
            framework, more = framework.edited(words)
        except Refused as refused:
            raise GroupRefused(at, str(refused)) from None
        added += more
    return framework, added


def wrong_edits(frameworks, history, front, command, lines):
    """What is wrong with the reply to edits, or None."""
    taken = lines[0].split()[:1] == ["OK"]
    if taken and front == 0:
        return "no entry stands there"
    before = frameworks[front - 1 if taken else front]
    try:
        _, added = changed(before, command.rows)
    except GroupRefused as refused:
        at, words = refused.args
        told = f"REFUSED {words} edit {at}" if command.is_group else f"REFUSED {words}"
        return None if lines == [told] else f"not {told}"
    if lines != [f"OK{added}"]:
        return f"not OK{added}"
    entry = history[front - 1]
    made = [plain(words) for words in command.rows]
    return None if (entry.session, entry.rows) == (command.session, made) else "another entry stands there"


def wrong_session(frameworks, history, session, asked, replies, budgeted):
    """What is wrong with the replies of a session, or None."""
    if len(asked) != len(replies):
        return f"{len(replies)} replies to {len(asked)} commands"
    last, entries = 0, []
    for command, (front, lines) in zip(asked, replies):
        taken = lines[:1] != [] and lines[0].startswith("OK")
        if not last + taken <= front < len(frameworks) or not lines:
            return f"at {front} behind {last}"
        last = front
        if command.is_query():
            words = command.rows[0][1:]
            wrong = None if budgeted and lines == ["UNKNOWN"] else wrong_answer(frameworks[front], words, lines)
        else:
            wrong = wrong_edits(frameworks, history, front, command, lines)
            entries += [front] if taken else []
        if wrong:
            return f"session {session}, {command} at {front}: {wrong}: {' / '.join(lines)}"
    own = [at for at, entry in enumerate(history, 1) if entry.session == session]
    return None if own == entries else f"session {session} has the entries {own}, not {entries}"


def wrong_transcript(framework, script, text, budgeted):
    """What is wrong with a transcript, or None."""
    sessions, told = replies_of(text)
    history = entries_of(told)
    if history is None:
        return "the history has no entries' lines"
    frameworks = [framework]
    for entry in history:
        try:
            frameworks.append(changed(frameworks[-1], entry.rows)[0])
        except GroupRefused as refused:
            return f"the history's {entry} is refused: {refused.args[1]}"
    commands = script_of(script)
    last = max((command.session for command in commands), default=0)
    if sorted(sessions) != list(range(1, last + 1)):
        return f"the sessions are {sorted(sessions)}"
    for session in sessions:
        asked = [command for command in commands if command.session == session]
        wrong = wrong_session(frameworks, history, session, asked, sessions[session], budgeted)
        if wrong:
            return wrong
    return None


def framework_of(text):
    """The framework that a text describes."""
    rows = [line.split() for line in text.splitlines()]
    rows = [row for row in rows if row and not row[0].startswith("#")]
    count = int(rows[0][2])
    if rows[0][1] == "af":
        return Af(range(1, count + 1), {(int(b), int(a)) for b, a in rows[1:]})
    contraries = {int(row[1]): frozenset() for row in rows if row[0] == "a"}
    for row in rows:
        if row[0] == "c":
            contraries[int(row[1])] |= {int(row[2])}
    heads = [[int(word) for word in row[1:]] for row in rows if row[0] == "r"]
    rules = {at + 1: (row[0], frozenset(row[1:])) for at, row in enumerate(heads)}
    return Aba(count, contraries, rules, len(rules) + 1)


def with_ends(text):
    """The text that a row writes in one line."""
    return text.replace(";", "\n").replace("\\r", "\r").replace("\\0", "\0")


def listed():
    """The scripts of the rows of `live` that end well: a name, the framework, the script, and the words behind it."""
    framework = answer = ""
    times, found = ["1", "*"], []
    rows = (TOP / "crates" / "argue_rows" / "data" / "rows.txt").read_bytes().decode("utf-8", "replace")
    for at, line in enumerate(rows.split("\n")):
        key, _, rest = line.partition(" ")
        if key == "framework":
            framework = with_ends(rest)
        elif key == "answer":
            answer = rest
        elif key == "times":
            times = rest.split(" ", 1)
        elif key == "live" and " => 0 " in line:
            words = line.split(" => ")[0].split()
            units = ["-b", words[words.index("-b") + 1]] if "-b" in words else []
            script = answer.replace("*", int(times[0]) * times[1])
            found.append((f"row {at + 1}", framework, with_ends(script), units))
        if " => " in line:
            times = ["1", "*"]
    return found


def scripts():
    folder = TOP / "examples"
    shown = [
        (path.name, path.with_suffix(".aba").read_text(), path.read_text(), []) for path in folder.glob("*.script")
    ]
    return listed() + shown + SEVERAL


def tried(program, folder, row, runs):
    """How many transcripts of a script there were, and what is wrong with the first bad one, or None."""
    name, framework, script, units = row
    file, lines = Path(folder, "framework"), Path(folder, "script")
    file.write_text(framework, encoding="utf-8", newline="")
    lines.write_text(script, encoding="utf-8", newline="")
    opening, texts = framework_of(framework), set()
    for _ in range(runs):
        words = [program, "live", "-f", str(file), "-s", str(lines), *units]
        done = subprocess.run(words, env=SETTINGS, stdout=subprocess.PIPE, text=True)
        if done.returncode != 0:
            return len(texts), f"{name}: status {done.returncode}: {done.stdout}"
        texts.add(done.stdout)
    for text in texts:
        wrong = wrong_transcript(opening, script, text, bool(units))
        if wrong:
            return len(texts), f"{name}: {wrong}\n{text}"
    if len(texts) > 1 and len({command.session for command in script_of(script)}) == 1:
        return len(texts), f"{name}: one session has several transcripts"
    return len(texts), None


def main():
    words = argparse.ArgumentParser(description=__doc__.splitlines()[0])
    words.add_argument("--program", default=str(TOP / "out" / "argue"))
    words.add_argument("--runs", type=int, default=200, help="how often each script is run")
    words.add_argument("--load", type=int, default=os.cpu_count(), help="how many busy processes run beside")
    words.add_argument("--only", default="", help="a word of the names of the scripts to run")
    given = words.parse_args()
    busy = [subprocess.Popen([sys.executable, "-c", "while True: pass"]) for _ in range(given.load)]
    bad = 0
    try:
        with tempfile.TemporaryDirectory() as folder:
            for row in scripts():
                if given.only not in row[0]:
                    continue
                count, wrong = tried(given.program, folder, row, given.runs)
                bad += wrong is not None
                print(wrong or f"{row[0]}: {given.runs} runs, {count} transcripts, each allowed", flush=True)
    finally:
        for process in busy:
            process.kill()
            process.wait()
    print("all transcripts are allowed" if not bad else f"{bad} scripts went wrong")
    sys.exit(1 if bad else 0)


if __name__ == "__main__":
    main()
