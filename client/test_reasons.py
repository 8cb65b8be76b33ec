"""Tests of the reasons: their logic from the records alone, their words, and bad input.

    python3 client/test_reasons.py

Needs a built `argue` (BURGAOUEZ_ARGUE names another). BURGAOUEZ_FRAMEWORKS is the number of random frameworks (30), and
BURGAOUEZ_SEED the first seed. The definitions here are the tests' own: they share no code with the narrator.
"""
from __future__ import annotations

import contextlib
import copy
import io
import os
import random
import re
import sys
import tempfile
import unittest
from itertools import combinations
from pathlib import Path

sys.path.insert(0, str(Path(__file__).resolve().parent))

import certificate
import page
import records
import words
from burgaouez import Accepted, ArgueError, Framework, Kind, No, Sets, Yes, check, solve
from certificate import AXIOMS, Axiom, Literal, View, clause_of, literal_of, read_certificate
from narration import Narrator, Wording, literal_words, plain
from reasons import NotAccepted, cited, main, reasons
from records import Case, Fact, Record, read_refutation, walk
from standing import Standing

COUNT = int(os.environ.get("BURGAOUEZ_FRAMEWORKS", "30"))
SEED = int(os.environ.get("BURGAOUEZ_SEED", "1"))
SECONDS = 60
EXAMPLES = Path(__file__).resolve().parent.parent / "examples"
MODES = ("Cf", "Ad", "Co", "St")


# A second reader, and the definitions


class Plain:
    """A framework as its text says."""

    def __init__(self, text):
        rows = [line.split() for line in text.splitlines() if line.strip() and not line.startswith("#")]
        self.is_rules, self.size = rows[0][1] == "aba", int(rows[0][2])
        numbers = [tuple(map(int, row)) for row in rows[1:]] if not self.is_rules else []
        self.attacks = set(numbers)
        self.assumed = {int(row[1]) for row in rows[1:] if row[0] == "a"}
        self.pairs = {(int(row[1]), int(row[2])) for row in rows[1:] if row[0] == "c"}
        self.rules = [(int(row[1]), frozenset(map(int, row[2:]))) for row in rows[1:] if row[0] == "r"]
        self.members = sorted(self.assumed) if self.is_rules else list(range(1, self.size + 1))

    def attackers(self, a):
        return {b for b, target in self.attacks if target == a}

    def against(self, a):
        return {c for one, c in self.pairs if one == a}

    def closure(self, given):
        closed = set(given)
        while True:
            more = {head for head, body in self.rules if body <= closed} - closed
            if not more:
                return closed
            closed |= more

    def attacked(self, chosen):
        if self.is_rules:
            derived = self.closure(chosen)
            return {a for a in self.assumed if self.against(a) & derived}
        return {a for b, a in self.attacks if b in chosen}

    def spread(self, chosen):
        return set(chosen) | self.attacked(chosen)


class World:
    """A set of a framework's members, with what each atom says of it."""

    def __init__(self, plain, chosen):
        self.plain, self.chosen = plain, frozenset(chosen)
        self.attacked = plain.attacked(self.chosen)
        if plain.is_rules:
            self.derived = {1: plain.closure(self.chosen), 2: plain.closure(plain.assumed - self.attacked)}
        clear = not self.chosen & self.attacked
        self.modes = {"Cf": clear, "Ad": clear and all(self.defends(a) for a in self.chosen)}
        self.modes["Co"] = self.modes["Ad"] and all(a in self.chosen for a in plain.members if self.defends(a))
        self.modes["St"] = clear and all(a in self.chosen or a in self.attacked for a in plain.members)

    def defends(self, a):
        if self.plain.is_rules:
            return not self.plain.against(a) & self.derived[2]
        return self.plain.attackers(a) <= self.attacked

    def holds(self, atom):
        name, *n = atom
        if name in MODES:
            return self.modes[name]
        if name == "Member":
            return n[0] in self.chosen
        if name == "Range":
            return n[0] in self.chosen or n[0] in self.attacked
        if name == "Tail":
            return any(b >= n[1] and b in self.chosen for b in self.plain.attackers(n[0]))
        if name == "Unmet":
            return any(b >= n[1] and b not in self.attacked for b in self.plain.attackers(n[0]))
        if name == "Der":
            return n[1] in self.derived[n[0]]
        if name == "Hit":
            return any(c >= n[2] and c in self.derived[n[0]] for c in self.plain.against(n[1]))
        rules = list(enumerate(self.plain.rules, 1))
        if name == "Miss":
            bodies = [body for r, (_, body) in rules if r == n[1]]
            return any(x >= n[2] and x not in self.derived[n[0]] for body in bodies for x in body)
        assert name == "Sup"
        return any(r >= n[2] and head == n[1] and body <= self.derived[n[0]] for r, (head, body) in rules)


class Worlds:
    """All sets of members; a literal is the mask of those in which it is true."""

    def __init__(self, plain):
        sets = [one for size in range(len(plain.members) + 1) for one in combinations(plain.members, size)]
        self.plain = plain
        self.worlds = [World(plain, one) for one in sets]
        self.all = (1 << len(sets)) - 1
        self.masks = {}

    def mask(self, literal):
        if literal.atom not in self.masks:
            self.masks[literal.atom] = self.where(lambda world: world.holds(literal.atom))
        return self.masks[literal.atom] if literal.positive else self.all ^ self.masks[literal.atom]

    def where(self, is_so):
        return sum(1 << index for index, world in enumerate(self.worlds) if is_so(world))

    def excepted(self, kind, sets):
        """Where a position is what a side clause excepts, by the words of its sentence."""
        def is_excepted(world, one):
            match kind:
                case "within":
                    return world.chosen <= set(one)
                case "is":
                    return world.chosen == set(one)
                case "wider":
                    return self.plain.spread(world.chosen) <= self.plain.spread(one)
            return not world.attacked & set(one)

        return self.where(lambda world: any(is_excepted(world, one) for one in sets))


# What is wrong with a record


def fact_is_so(plain, fact):
    match fact:
        case Fact("attacks", (b, a)):
            return (b, a) in plain.attacks
        case Fact("attackers", (a, those)):
            return set(those) == plain.attackers(a)
        case Fact("some attackers", (a, spans, those)):
            return set(those) == {b for b in plain.attackers(a) if any(i <= b < j for i, j in spans)}
        case Fact("contrary", (a, c)):
            return (a, c) in plain.pairs
        case Fact("contraries", (a, those)):
            return a in plain.assumed and list(those) == sorted(plain.against(a))
        case Fact("some contraries", (a, spans, those)):
            return set(those) == {c for c in plain.against(a) if any(i <= c < j for i, j in spans)}
        case Fact("rule", (r, head, body)):
            return r <= len(plain.rules) and plain.rules[r - 1] == (head, frozenset(body))
        case Fact("rules", (x, rules)):
            return list(rules) == [r for r, (head, _) in enumerate(plain.rules, 1) if head == x]
        case Fact("some rules", (x, spans, rules)):
            mine = [r for r, (head, _) in enumerate(plain.rules, 1) if head == x and any(i <= r < j for i, j in spans)]
            return list(rules) == mine
    return False


def only(record, *names):
    return [fact.values for fact in record.facts if fact.name in names]


def literals(*texts):
    return {literal_of(text) for text in texts}


def allowed_clashes(plain, record, side):
    """The sets of literals that can't hold together by the record's facts alone: one of them has to be its premises
    with the negation of its conclusion. Assuming and deriving an assumption are one."""
    group = record.group
    if group == "side":
        return [side]
    if group in ("A2", "A3", "A4"):
        (b, a), = only(record, "attacks")
        second = {"A2": f"Member:{a}", "A3": f"-Tail:{b}:1", "A4": f"-Tail:{a}:1"}[group]
        first = f"Member:{a}" if group == "A3" else f"Member:{b}"
        return [literals(first, second)]
    if group in ("A5", "A8"):
        (a, those), = only(record, "attackers")
        if group == "A5":
            return [literals(f"Tail:{a}:1", *(f"-Member:{b}" for b in those))]
        return [literals(f"Unmet:{a}:1", *(f"Tail:{b}:1" for b in those))]
    if group in ("A7", "A10", "A11", "A12", "A13"):
        told = [*record.premises] + ([] if record.conclusion is None else [record.conclusion])
        a = next(literal.atom[1] for literal in told if literal.atom[0] not in MODES)
        parts = {"A7": "-Member:{0} -Unmet:{0}:1", "A10": "-Member:{0} -Tail:{0}:1", "A12": "Member:{0} -Range:{0}",
                 "A11": "Range:{0} -Member:{0} -Tail:{0}:1", "A13": "Tail:{0}:1 -Range:{0}"}[group]
        return [literals(*parts.format(a).split())]
    return allowed_by_rules(plain, record)


def allowed_by_rules(plain, record):
    group = record.group
    if group in ("B9 3", "B12", "B13"):
        (a, c), = only(record, "contrary")
        parts = {"B9 3": "Der:2:{0} Der:1:{1}", "B12": "Member:{0} Der:1:{1}", "B13": "Member:{0} Der:2:{1}"}[group]
        return [literals(*parts.format(a, c).split())]
    if group in ("B3", "B14", "B15"):
        (a, those), = only(record, "contraries")
        part, k = {"B3": ("-Der:2:{}", 1), "B14": ("-Member:{}", 2), "B15": ("-Member:{}", 1)}[group]
        return [literals(part.format(a), *(f"-Der:{k}:{c}" for c in those))]
    rules = only(record, "rule")
    if group == "B5":
        (_, head, body), = rules
        return [literals(f"-Der:{k}:{head}", *(f"Der:{k}:{x}" for x in body)) for k in (1, 2)]
    if group not in ("B9", "B17"):
        return []
    mine = [x for x, _ in only(record, "rules")]
    found = []
    for k in (1, 2):
        for x in mine:
            bodies = [body for (_, head, body) in rules if head in mine]
            outer = [body for body in bodies if group == "B9" or not set(mine) & set(body)]
            chosen = [set()]
            for way in outer:
                chosen = [one | {y} for one in chosen for y in way]
            for one in chosen:
                members = [f"-Member:{w}" for w in mine if w in plain.assumed] if k == 1 else []
                found.append(literals(f"Der:{k}:{x}", *members, *(f"-Der:{k}:{y}" for y in one)))
    return found


def same(plain, literals_):
    """Literals with modes left out, and with deriving an assumption said as assuming it."""
    def one(literal):
        if literal.atom[0] == "Der" and literal.atom[1] == 1 and literal.atom[2] in plain.assumed:
            return Literal(literal.positive, ("Member", literal.atom[2]))
        return literal

    return {one(literal) for literal in literals_ if literal.atom[0] not in MODES}


def faults(worlds, refutation, sets, record):
    """What is wrong with a record by itself; nothing where it is right."""
    plain, wrong = worlds.plain, []
    wrong += [f"not so: {fact}" for fact in record.facts if not fact_is_so(plain, fact)]
    mask, side = worlds.all, set()
    for premise in record.premises:
        mask &= worlds.mask(premise)
    numbers = [] if record.side is None else [record.side]
    if record.lemma is not None:
        numbers = next(lemma.sides for lemma in refutation.lemmas if lemma.step == record.lemma)
    for number in numbers:
        clause = refutation.claim.sides[number - 1]
        named = [sets[n - 1] for n in clause.sets]
        mask &= ~worlds.excepted(clause.kind, named)
        side = in_words(plain, side_literals(plain, clause.kind, named[0]))
    if record.conclusion is not None:
        mask &= ~worlds.mask(record.conclusion)
    if mask:
        wrong.append("doesn't follow")
    if record.group not in ("lemma", "mode") and not speaks_of_inner_links(record):
        told = set(record.premises) | ({-record.conclusion} if record.conclusion is not None else set())
        if not any(same(plain, told) == same(plain, one) for one in allowed_clashes(plain, record, side)):
            wrong.append("isn't what its words say")
    return wrong


def speaks_of_inner_links(record):
    """Whether a record of a certificate that is read as it stands has links within a chain among its literals."""
    said = [one for one in (*record.premises, record.conclusion) if one is not None and one.atom[0] not in MODES]
    return any(records.is_inner(one) for one in said) or any(fact.name.startswith("some ") for fact in record.facts)


def side_literals(plain, kind, one):
    """What a position lacks that a side clause excepts."""
    beyond = [m for m in plain.members if m not in one]
    match kind:
        case "within":
            return literals(*(f"-Member:{m}" for m in beyond))
        case "is":
            return literals(*(f"-Member:{m}" for m in beyond), *(f"Member:{e}" for e in one))
        case "wider":
            return literals(*(f"-Range:{m}" for m in plain.members if m not in plain.spread(one)))
    return literals(*(f"-Hit:1:{e}:1" if plain.is_rules else f"-Tail:{e}:1" for e in one))


def in_words(plain, lacking):
    """The same, with attacks on an assumption said as what would be derived."""
    hit = {literal for literal in lacking if literal.atom[0] == "Hit"}
    return (lacking - hit) | literals(*(f"-Der:1:{c}" for literal in hit for c in plain.against(literal.atom[2])))


def stands_so(plain, one):
    """Whether what a standing's kind says is so of its set, by the definitions."""
    members, attacked = set(one.members), plain.attacked(one.members)
    if one.kind == "itself":
        return {(a, a) for a in one.about} <= plain.attacks
    if one.kind in ("unattacked", "answered"):
        answered = {fact.values[1] for fact in one.facts if fact.name == "attacks" and fact.values[0] in members}
        return set(one.about) <= members and all(plain.attackers(a) == answered for a in one.about)
    if one.kind == "falls":
        return set(one.by) <= members and all((one.by[0], x) in plain.attacks for x in one.about)
    if one.kind == "held":
        return one.about[0] in members and set(one.by) == plain.attackers(one.about[0]) - attacked != set()
    if one.kind == "open":
        pairs = set(zip(one.by, one.about))
        return pairs <= plain.attacks and not attacked & {n for pair in pairs for n in pair}
    derived, reach = plain.closure(members), plain.closure(plain.assumed - attacked)
    if one.kind in ("known", "derived"):
        return set(one.about) | set(one.by) <= derived
    if one.kind in ("lacking", "circle"):
        return not reach & (set(one.about) | set(one.by))
    against = plain.against(one.about[0])
    if one.kind == "attacked":
        return set(one.by) <= against & derived != set()
    if one.kind == "possible":
        return set(one.by) <= against & reach != set() and one.about[0] not in attacked
    return one.about[0] in members and not against & reach and against <= set(one.by) and not reach & set(one.by)


def scope_faults(refutation, ground):
    """Premises out of scope, cases that don't close, ends that are no clash."""
    wrong = []

    def visit(items, known):
        known = set(known)
        for item in items:
            if isinstance(item, Case):
                visit(item.items, known | {-item.claim})
                known.add(item.claim)
                continue
            wrong.extend(f"out of scope: {premise}" for premise in item.premises if premise not in known)
            known.add(item.conclusion)
        last = items[-1] if items else None
        if not isinstance(last, Record) or last.conclusion is not None:
            wrong.append("no clash at the end")
        if any(isinstance(item, Record) and item.conclusion is None for item in items[:-1]):
            wrong.append("goes on behind a clash")

    modes = {Literal(True, (mode,)) for mode in MODES}
    base = set(ground) | modes
    for lemma in refutation.lemmas:
        visit(lemma.items, base | set(lemma.supposed))
    visit(refutation.items, base | set(refutation.supposed))
    return wrong


# Frameworks


def random_framework(rng):
    if rng.random() < 0.5:
        n = rng.randint(1, 8)
        return Framework.of_attacks(
            [(b, a) for b in range(1, n + 1) for a in range(1, n + 1) if rng.random() < 1.6 / n], size=n)
    n = rng.randint(3, 9)
    m = rng.randint(1, min(5, n - 1))
    heads = [rng.randint(m + 1, n) for _ in range(rng.randint(1, 7))]
    rules = [(head, [rng.randint(1, n) for _ in range(rng.randint(0, 2))]) for head in heads]
    contraries = {a: rng.choices(range(1, n + 1), k=rng.choice((0, 1, 1, 1, 2, 2, 3))) for a in range(1, m + 1)}
    return Framework.of_rules(range(1, m + 1), contraries, rules, size=n)


class Told:
    """The reasons of one answer with what the tests compare them with."""

    def __init__(self, framework, task, query, seconds=SECONDS):
        self.found = reasons(framework, task, query, seconds=seconds)
        self.plain = Plain(framework.text())
        self.sets = self.found.sets
        self.ground = [one for s in self.found.sections if s.heading == "Beyond doubt" for one in s.sentences]
        self.grounds = [record for one in self.ground for record in one.records]
        sections = [s for s in self.found.sections if s.heading.startswith("Why")]
        self.parts = list(zip(self.found.refutations, sections))


def told_of(framework, rng):
    """The reasons of each task that may need a refutation, for one number."""
    for task in framework.tasks:
        if task.endswith("-GR") or task == "SE-CO":
            continue
        if task.startswith("D"):
            yield Told(framework, task, rng.randint(1, framework.size))
        else:
            yield Told(framework, task, None)


class RandomReasons(unittest.TestCase):
    """The logic of random frameworks' reasons."""

    @classmethod
    def setUpClass(cls):
        cls.told = []
        for seed in range(SEED, SEED + COUNT):
            rng = random.Random(seed)
            framework = random_framework(rng)
            worlds = Worlds(Plain(framework.text()))
            cls.told += [(seed, worlds, told) for told in told_of(framework, rng)]

    def each(self):
        for seed, worlds, told in self.told:
            self.now = f"seed {seed}, {told.found.task} {told.found.query or ''}: "
            yield worlds, told

    def _formatMessage(self, msg, standardMsg):
        return getattr(self, "now", "") + super()._formatMessage(msg, standardMsg)

    def test_each_record_is_right(self):
        count = 0
        for worlds, told in self.each():
            for record in told.grounds:
                count += 1
                self.assertEqual(faults(worlds, told.found.refutations[0], told.sets, record), [], record)
            for refutation, _ in told.parts:
                items = [*refutation.items, *(item for lemma in refutation.lemmas for item in lemma.items)]
                for record in walk(items):
                    count += 1
                    self.assertEqual(faults(worlds, refutation, told.sets, record), [], record)
        print(f"{count} inferences of {len(self.told)} answers of {COUNT} frameworks", file=sys.stderr)

    def test_each_standing_is_right(self):
        count = 0
        for _, told in self.each():
            sentences = [one for section in told.found.sections for one in section.sentences]
            for standing in (record for one in sentences for record in one.records if isinstance(record, Standing)):
                count += 1
                self.assertTrue(all(fact_is_so(told.plain, fact) for fact in standing.facts), standing)
                self.assertTrue(stands_so(told.plain, standing), standing)
        print(f"{count} standings", file=sys.stderr)

    def test_scopes(self):
        for _, told in self.each():
            known = set()
            for record in told.grounds:
                self.assertTrue(all(p in known or p.atom[0] in MODES for p in record.premises), record)
                known.add(record.conclusion)
            for refutation, _ in told.parts:
                self.assertEqual(scope_faults(refutation, known), [])

    def test_suppositions_refute_the_other_answers(self):
        """Each position that would make the answer wrong is one of those that are supposed."""
        for worlds, told in self.each():
            for refutation, _ in told.parts:
                self.assertLessEqual(set(refutation.supposed), set(refutation.claim.goals))
                self.assertTrue(all(1 <= n <= len(refutation.claim.sides) for n in refutation.sides))
                mask = worlds.all
                for literal in refutation.supposed:
                    mask &= worlds.mask(literal)
                for number in refutation.sides:
                    clause = refutation.claim.sides[number - 1]
                    mask &= ~worlds.excepted(clause.kind, [told.sets[n - 1] for n in clause.sets])
                self.assertEqual(mask, 0)

    def test_claims(self):
        """What is refuted is what the answer needs, by the definitions over all sets."""
        for worlds, told in self.each():
            for claim in (refutation.claim for refutation, _ in told.parts):
                for side in claim.sides:
                    lacking = side_literals(told.plain, side.kind, told.sets[side.sets[0] - 1])
                    self.assertEqual({-literal for literal in side.literals}, lacking)
            self.assertEqual(claimed(told), [set(refutation.claim.goals) for refutation, _ in told.parts])

    def test_words(self):
        for _, told in self.each():
            for section in told.found.sections:
                for one in section.all():
                    self.check_words(told, one)

    def check_words(self, told, one):
        text = told.found.fill(re.sub("[\ue001]([0-9]+)[\ue003]", "SET", one.text))
        bare = re.sub(r"^Lemma [0-9]+|[Ll]emma [0-9]+|rule [0-9]+", "", text)
        said = {int(number) for number in re.findall(r"[0-9]+", bare)}
        if not one.records or not isinstance(one.records[0], Record):
            return
        mine, must = set(), set()
        for record in one.records:
            mine |= {n for fact in record.facts for n in flat(fact.values)}
            mine |= {n for literal in record.premises for n in literal.atom[1:]}
            if record.conclusion is not None:
                mine |= set(record.conclusion.atom[1:])
                must.add(record.conclusion.atom[2 if record.conclusion.atom[0] == "Der" else 1])
            must |= {n for fact in record.facts if fact.name == "attacks" for n in fact.values}
        self.assertLessEqual(said - {1_000_000}, mine | {told.plain.size}, text)
        self.assertLessEqual(must, said, text)

    def test_citations(self):
        for _, told in self.each():
            homes = {}
            for one in told.ground:
                homes.update((record.conclusion, one.number) for record in one.records)
            for refutation, section in told.parts:
                self.check_citations(section.sentences, homes, bool(refutation.lemmas))

    def check_citations(self, sentences, homes, has_lemmas):
        homes = dict(homes)
        for one in sentences:
            if one.items:
                inner = {**homes, -one.case.claim: one.number} if one.case is not None else homes
                self.check_citations(one.items, inner, has_lemmas)
                if one.case is not None:
                    homes[one.case.claim] = one.number
                continue
            own = {record.conclusion for record in one.records}
            premises = {p for record in one.records for p in record.premises} - own
            rests = {homes[p] for p in premises if p in homes}
            self.assertLessEqual(rests - {one.number - 1}, set(one.cites))
            if not has_lemmas:
                self.assertLessEqual(set(one.cites), rests)
            homes.update((record.conclusion, one.number) for record in one.records)

    def test_the_told_certificate_is_accepted(self):
        """One in ten, as `reasons` itself asks for each."""
        for _, told in list(self.each())[::10]:
            found = told.found
            given = (found.framework, found.task, found.answer, found.query, found.certificate.text())
            verdict = check(*given, seconds=SECONDS)
            self.assertEqual(verdict, Accepted())

    def test_each_record_has_its_sentence(self):
        for _, told in self.each():
            for refutation, _ in told.parts:
                wording = Wording(View(told.found.framework), refutation.claim, refutation.lemmas)
                for record in walk(refutation.items):
                    own = not wording.key(record)[0].startswith("other")
                    self.assertTrue(own or speaks_of_inner_links(record), record)

    def test_the_programs_own_certificates(self):
        """Read as they stand, with their lemmas."""
        lemmas = 0
        for worlds, told in self.each():
            view, steps = View(told.found.framework), read_certificate(told.found.answer.certificate).refutations
            for (refutation, _), mine in zip(told.parts, steps):
                found = read_refutation(view, refutation.claim, mine)
                lemmas += len(found.lemmas)
                self.assertEqual(scope_faults(found, ()), [])
                for record in walk([*found.items, *(item for lemma in found.lemmas for item in lemma.items)]):
                    self.assertEqual(faults(worlds, found, told.sets, record), [], record)
        print(f"{lemmas} lemmas", file=sys.stderr)

    def test_planted_faults_are_caught(self):
        missed, planted = [], 0
        for worlds, told in self.each():
            for refutation, _ in told.parts:
                for record in walk(refutation.items):
                    for what, wrong in planted_in(record, refutation.claim.sides, told.plain):
                        planted += 1
                        if not faults(worlds, refutation, told.sets, wrong):
                            missed.append((what, record))
        self.assertEqual(missed, [])
        print(f"{planted} planted faults", file=sys.stderr)

    def test_cases_closed_too_late_are_caught(self):
        for _, told in self.each():
            ground = {record.conclusion for record in told.grounds}
            for refutation, _ in told.parts:
                for index, item in enumerate(refutation.items):
                    if isinstance(item, Case):
                        late = copy.deepcopy(refutation)
                        late.items[index].items.append(late.items.pop(index + 1))
                        self.assertNotEqual(scope_faults(late, ground), [])
                        opened = copy.deepcopy(refutation)
                        opened.items[index : index + 1] = opened.items[index].items
                        self.assertNotEqual(scope_faults(opened, ground), [])


def flat(values):
    for value in values:
        if isinstance(value, tuple):
            yield from flat(value)
        else:
            yield value


def claimed(told):
    """The goals of each refutation that an answer needs."""
    found, plain = told.found, told.plain
    problem, semantics = found.task.split("-")
    mode = literals({"ST": "St", "CO": "Co", "STG": "Cf"}.get(semantics, "Ad"))
    if semantics == "ID":
        ideal, others = found.sets[0], found.sets[1:]
        shunned = {a for one in others for a in plain.attacked(one)}
        return [mode, mode | literals(*(f"Member:{e}" for e in ideal), *(f"-Member:{u}" for u in shunned))]
    shows = isinstance(found.answer, {"SE": Sets, "DC": Yes, "DS": No, "EE": ()}[problem])
    if semantics == "GR" or (semantics in ("CO", "ST") and shows) or (found.task == "DS-CO"):
        return []
    held = lambda one: literals(*(f"Range:{r}" for r in plain.spread(one)))
    if shows:
        one = found.sets[0]
        return [mode | (held(one) if semantics in ("SST", "STG") else literals(*(f"Member:{e}" for e in one)))]
    bad = set()
    if problem in ("DC", "DS"):
        mode = literals("Ad") if semantics == "CO" else mode
        goal = literal_of(f"Der:1:{found.query}" if plain.is_rules else f"Member:{found.query}")
        bad = {goal if problem == "DC" else -goal}
    spreads = [plain.spread(one) for one in found.sets] if semantics in ("SST", "STG") else []
    distinct = [one for n, one in enumerate(spreads) if problem != "EE" or one not in spreads[:n]]
    return [mode | bad] + [mode | bad | literals(*(f"Range:{r}" for r in one)) for one in distinct]


def planted_in(record, sides, plain):
    """Records that are wrong in one thing."""
    if record.group in ("lemma", "mode") or speaks_of_inner_links(record):
        return
    for index, fact in enumerate(record.facts):
        def exchanged(values, name=fact.name, index=index):
            return altered(record, facts=record.facts[:index] + (Fact(name, values),) + record.facts[index + 1 :])

        if fact.name == "attacks" and fact.values[0] != fact.values[1]:
            yield "turned round", exchanged(fact.values[::-1]) if fact.values[::-1] not in plain.attacks else altered(
                record, facts=(Fact("attacks", (99, 98)),))
        if fact.name in ("attackers", "contraries", "rules") and fact.values[1]:
            yield "left out", exchanged((fact.values[0], fact.values[1][:-1]))
        if fact.name == "contraries":
            yield "one too many", exchanged((fact.values[0], (*fact.values[1], plain.size + 1)))
        if fact.name == "contrary":
            yield "another contrary", exchanged((fact.values[0], fact.values[1] + 1))
        if fact.name == "rule" and fact.values[2]:
            yield "a shorter rule", exchanged((*fact.values[:2], fact.values[2][:-1]))
    for premise in record.premises:
        rest = tuple(p for p in record.premises if p != premise)
        negated = () if record.conclusion is None else (-record.conclusion,)
        told, left = same(plain, record.premises + negated), same(plain, rest + negated)
        others = allowed_by_rules(plain, record) if record.group in ("B9", "B17") else []
        enough = any(left == same(plain, one) for one in others)
        if told != left and not enough:  # a rule may lack two of its statements, of which either is reason enough
            yield "a premise dropped", altered(record, premises=rest)
    if record.side is not None and len(sides) > 1:
        other = record.side % len(sides) + 1
        if set(sides[other - 1].literals) != set(sides[record.side - 1].literals):
            yield "another set", altered(record, side=other)
    if record.conclusion is not None:
        yield "turned conclusion", altered(record, conclusion=-record.conclusion)


def altered(record, **changes):
    wrong = copy.copy(record)
    for name, value in changes.items():
        setattr(wrong, name, value)
    return wrong


def needed_of_contraries(framework):
    """The axioms on assumptions and contraries that a framework needs."""
    for a in framework.assumptions:
        those = framework.contraries.get(a, ())
        yield from (Axiom(name, (a,)) for name in ("B2", "B3", "B14", "B15"))
        for c in those:
            yield from (Axiom("B9", (3, a, c)), Axiom("B12", (a, c)), Axiom("B13", (a, c)))
        starts = [1, *(c + 1 for c in those)]
        for k in (1, 2):
            yield from (Axiom("B18", (k, a, i, c)) for i, c in zip(starts, those))
            yield Axiom("B19", (k, a, starts[-1]))


# The table, the words, and bad input


class Table(unittest.TestCase):
    """Each axiom is true, none is without its sentence, and no literal without its words."""

    def test_each_axiom_is_true_of_every_set(self):
        """The axioms that a framework with rules needs, beside the definitions."""
        for seed in range(SEED, SEED + 10):
            framework = random_framework(random.Random(seed))
            if framework.kind is Kind.ATTACKS:
                continue
            view, worlds = View(framework), Worlds(Plain(framework.text()))
            for axiom in needed_of_contraries(framework):
                left = [one for one in clause_of(axiom) if view.fact(one.atom) is None]
                mask = 0
                for literal in left:
                    mask |= worlds.mask(literal)
                true = any(view.fact(one.atom) == one.positive for one in clause_of(axiom))
                self.assertTrue(true or mask == worlds.all, axiom)

    def test_facts_of_contraries(self):
        view = View(Framework.of_rules([1, 2], {1: (2, 4)}, [], size=4))
        for text, value in (
            ("Con:1:2", True), ("Con:1:4", True), ("Con:1:3", False), ("Con:1:0", False), ("Con:3:2", False),
            ("ConGap:1:1:2", True), ("ConGap:1:1:3", False), ("ConGap:1:3:4", True), ("ConGap:1:2:2", True),
            ("ConGap:1:5:1000001", True), ("ConGap:1:1:1000001", False), ("ConGap:2:1:1000001", True),
            ("ConGap:3:1:1000001", False), ("ConGap:4:2:2", False), ("Hit:1:1:1", None),
        ):
            self.assertEqual(view.fact(literal_of(text).atom), value, text)

    def test_clauses_on_contraries(self):
        for name, numbers, clause in (
            ("B3", (5,), "-Asm:5 Hit:1:5:1 Der:2:5"),
            ("B14", (5,), "-Co -Asm:5 Hit:2:5:1 Member:5"),
            ("B15", (5,), "-St -Asm:5 Member:5 Hit:1:5:1"),
            ("B18", (2, 5, 3, 7), "-Hit:2:5:3 -ConGap:5:3:7 Der:2:7 Hit:2:5:8"),
            ("B19", (1, 5, 8), "-Hit:1:5:8 -ConGap:5:8:1000001"),
        ):
            self.assertEqual(" ".join(map(str, clause_of(Axiom(name, numbers)))), clause)

    def test_each_axiom_has_a_sentence_for_each_literal_it_gives(self):
        for row, (_, clause) in AXIOMS.items():
            group = records.CHAINS.get(row, row)
            if row in records.SILENT:
                continue
            for group in ("B3", "B14", "B15") if group == "B18" else (group,):
                for text in clause.split():
                    name = text.removeprefix("-").split(":")[0]
                    unsaid = name in certificate.FACTS or name in MODES or name in ("Miss", "Sup", "Hit")
                    if not unsaid and text.split(":")[-1] in ("a", "b", "c", "x", "j", "h", "1"):
                        given = f"{group} {'-' if text.startswith('-') else ''}{name}"
                        found = [key for key in words.SENTENCES if key == given or key.startswith(given + " ")]
                        self.assertTrue(found, given)
                self.assertTrue(any(key.startswith(group + " clash") for key in words.SENTENCES), group)

    def test_each_literal_has_words(self):
        view = View(Framework.of_rules([1], {1: 2}, [(2, [1])]))
        for row, (_, clause) in AXIOMS.items():
            for text in clause.split():
                name, *numbers = text.removeprefix("-").split(":")
                if name not in certificate.FACTS:
                    for sign in (True, False):
                        for last in (1, 2):
                            atom = (name, *([1] * (len(numbers) - 1)), *([last] if numbers else []))
                            self.assertTrue(literal_words(view, Literal(sign, atom)), atom)

    def test_the_sentences_name_only_fields_that_are_filled(self):
        for key, text in {**words.SENTENCES, **words.MERGED}.items():
            self.assertNotIn("??", text)
            self.assertNotRegex(text, r"[.]$", key)


# Of 1 attacks 2, 8 attacks 5, 6 and 2 attack 8, 7 attacks 6 and 2 attacks 7: step 3 is a hint of two others.
TWICE = """cert 1
r
a A3 1 2
a A6 1 1
d -Ad -Member:2 -Attack:1:2 -Gap:1:1:1000001 0 1 2
a A3 7 6
a A6 7 3
a A5 7 1 2
d -Ad -Member:6 -Attack:7:6 -Gap:7:3:1000001 -Gap:7:1:2 -Attack:1:2 -Gap:1:1:1000001 0 4 5 6 3
a A3 8 5
a A5 8 1 2
a A5 8 3 6
a A6 8 7
d -Ad -Member:5 -Attack:8:5 -Gap:8:1:2 -Gap:8:3:6 -Gap:8:7:1000001 -Attack:1:2 -Gap:1:1:1000001 -Attack:7:6 \
-Gap:7:3:1000001 -Gap:7:1:2 0 3 7 8 9 10 11
end
"""


# Of 3 and 4, which no rule gives, against 1, and 1 against 2: step 11 is a case of its own.
NOTHING_AGAINST = """cert 1
r
a B16 1
a B9 1 3
a B11 1 3 1
a B1 3
a B9 1 4
a B11 1 4 1
a B1 4
a B18 1 1 1 3
a B18 1 1 4 4
a B19 1 1 5
d -Ad -Hit:1:1:1 Asm:3 Asm:4 -HGap:3:1:1000001 -HGap:4:1:1000001 -ConGap:1:1:3 -ConGap:1:4:4 -ConGap:1:5:1000001 0 \
1 4 3 2 7 6 5 8 9 10
a B3 1
a B9 1 2
a B11 1 2 1
a B13 2 1
d -Ad -Der:1:2 -Asm:1 -HGap:2:1:1000001 -Con:2:1 Asm:3 Asm:4 -HGap:3:1:1000001 -HGap:4:1:1000001 -ConGap:1:1:3 \
-ConGap:1:4:4 -ConGap:1:5:1000001 0 11 12 14 13 15
end
"""


class ByHand(unittest.TestCase):
    """Reasons compared with what was written by hand."""

    def section(self, framework, task, query, heading):
        found = reasons(framework, task, query, seconds=SECONDS)
        part = next(one for one in found.sections if one.heading == heading)
        told = [f"{one.number} {found.fill(one.text)}{cited(one.cites)}" for one in part.all()]
        return [found.fill(part.intro), *told]

    def example(self, name):
        return Framework.from_file(EXAMPLES / name)

    def test_silence(self):
        self.assertEqual(self.section(self.example("hearing.af"), "DC-PR", 7, "Why"), [
            "Suppose there is a position that defends itself and holds silent.",
            "1 Letter attacks silent, so it must answer letter; only contract does, so it holds contract.",
            "2 Contract attacks silent: it would attack itself. That can't be.",
        ])

    def test_on_time(self):
        self.assertEqual(self.section(self.example("hearing.af"), "DC-PR", 2, "Beyond doubt already")[1:], [
            "1 Both-signed stands: nothing attacks it.",
            "2 Note stands: date-changed attacks it, and both-signed answers that.",
            "3 On-time falls to note.",
        ])

    def test_hearing_ground(self):
        self.assertEqual(self.section(self.example("hearing.af"), "EE-PR", None, "Beyond doubt"), [
            "This is so of every position that defends itself.",
            "8 Nothing attacks both-signed, so both-signed goes unanswered and rules out date-changed.",
            "9 Only date-changed attacks note, and is out; so note goes unanswered and rules out on-time.",
        ])

    def test_a_ring_has_no_stable_set(self):
        self.assertEqual(self.section(self.example("cycle.af"), "SE-ST", None, "Why")[0],
                         "Suppose there is a position with a verdict on everything.")

    def test_itself(self):
        self.assertEqual(self.section(Framework.of_attacks([(1, 1)]), "DC-PR", 1, "A short reason"), [
            "Nothing that attacks itself is ever held.", "1 1 attacks itself.",
        ])

    def test_demand_without_answer(self):
        ring = Framework.of_attacks([(1, 2), (3, 1), (4, 3), (5, 4), (2, 5)])
        self.assertEqual(self.section(ring, "DC-PR", 2, "Why"), [
            "Suppose there is a position that defends itself and holds 2.",
            "1 1 attacks 2, so it must answer 1; only 3 does, so it holds 3.",
            "2 4 attacks 3, so it must answer 4; only 5 does, so it holds 5.",
            "3 2 attacks 5: it would attack itself. That can't be.",
        ])

    def test_untreated(self):
        self.assertEqual(self.section(self.example("anticoagulant.aba"), "DC-PR", 2, "Beyond doubt already")[1:], [
            "1 Known are stroke-risk, bleed-recorded, normal-count and unfilled.",
            "2 Untreated-unsafe follows from stroke-risk.",
            "3 Untreated falls: untreated-unsafe speaks against it, and that follows.",
        ])

    def test_anticoagulant(self):
        found = self.section(self.example("anticoagulant.aba"), "EE-PR", None, "Why there is no other")
        self.assertEqual([line.split(" ", 1)[1] for line in found], [
            "preferred set that lies within one of the sets shown is that set. Suppose there is a position that "
            "defends itself and lies within none of the sets shown.",
            "All else outside of set 1 is out; so it assumes record-right, unless it lies within set 1. [19]",
            "It derives tablets-missed, which follows from record-right and unfilled and speaks against tablets-taken; "
            "so it can't assume tablets-taken. [18]",
            "All else outside of set 2 is out; so it assumes give, unless it lies within set 2. [19]",
            "It derives bleeding-risk, which follows from record-right and bleed-recorded. [18, 20]",
            "It derives unsafe, which follows from bleeding-risk and speaks against give: it would attack itself. "
            "That can't be. [22]",
        ])

    def test_charity(self):
        found = self.section(self.example("inheritance.af"), "DS-PR", 4, "Why")
        self.assertEqual(found[1:4], [
            "11 It doesn't hold no-will. Suppose it did:",
            "12 May attacks no-will, so it must answer May; only March does, so it holds March.",
            "13 March attacks no-will: it would attack itself. That can't be. [11]",
        ])
        self.assertEqual(found[-1], "21 May attacks March: it would attack itself. That can't be. [19]")

    def test_a_lemma_that_is_used_twice(self):
        framework = Framework.of_attacks([(1, 2), (8, 5), (6, 8), (2, 8), (7, 6), (2, 7)])
        answer = No(certificate=TWICE)
        self.assertEqual(check(framework, "DC-PR", answer, 5, seconds=SECONDS), Accepted())
        view, read = View(framework), read_certificate(TWICE)
        claim = certificate.claims_of(view, "DC-PR", 5, answer, read.sets)[0]
        found = read_refutation(view, claim, read.refutations[0])
        worlds = Worlds(Plain(framework.text()))
        self.assertEqual(scope_faults(found, ()), [])
        for record in walk([*found.items, *found.lemmas[0].items]):
            self.assertEqual(faults(worlds, found, [], record), [])
        told = [one for sentence in Narrator(view).refutation(found) for one in sentence.all()]
        self.assertEqual([f"{one.number} {plain(one.text, str)}{cited(one.cites)}" for one in told], [
            "1 Lemma 1. Suppose there is a position that defends itself and holds 2:",
            "2 1 attacks 2, and nothing attacks 1. That can't be.",
            "3 By lemma 1, it doesn't hold 2. [1]",
            "4 It doesn't hold 6. Suppose it did:",
            "5 7 attacks 6, so it must answer 7; only 2 does, so it holds 2.",
            "6 Lemma 1 rules that out. That can't be. [1]",
            "7 8 attacks 5, so it must answer 8; but all that attacks 8 is out (2 and 6). That can't be. [3, 4]",
        ])

    def test_a_statement_that_is_known_twice(self):
        framework = Framework.of_rules([1], {1: 5}, [(4, []), (4, []), (5, [4, 6])])
        self.assertEqual(self.section(framework, "SE-GR", None, "The grounded set"), [
            "It assumes 1.",
            "1 Known is 4.",
            "2 6 is shut out: it has no rule.",
            "3 1 stands: only 5 speaks against it, which needs 6, which is out.",
        ])

    def test_a_circle(self):
        """2 and 3 only follow from each other, and nothing else speaks against 1."""
        framework = Framework.of_rules([1], {1: 3}, [(2, [3]), (3, [2])])
        self.assertEqual(self.section(framework, "SE-GR", None, "The grounded set")[1:], [
            "1 2 and 3 are shut out, coming only from each other.",
            "2 1 stands: only 3 speaks against it, which can only come from itself, in a circle.",
        ])
        self.assertEqual(self.section(framework, "DC-PR", 3, "Why"), [
            "Suppose there is a position that defends itself and derives 3.",
            "2 It has 3, from which 2 follows, but doesn't derive 2. That can't be. [1]",
        ])
        self.assertEqual(self.section(framework, "DC-PR", 3, "Beyond doubt")[1:], [
            "1 2 and 3 could only come from each other, in a circle; so not 2.",
        ])

    def test_a_case_on_several_contraries(self):
        framework = Framework.of_rules([1, 2], {1: (3, 4), 2: 1}, [], size=4)
        answer = No(certificate=NOTHING_AGAINST)
        self.assertEqual(check(framework, "DC-PR", answer, 2, seconds=SECONDS), Accepted())
        view, read = View(framework), read_certificate(NOTHING_AGAINST)
        claim = certificate.claims_of(view, "DC-PR", 2, answer, read.sets)[0]
        found = read_refutation(view, claim, read.refutations[0])
        self.assertEqual(scope_faults(found, ()), [])
        for record in walk(found.items):
            self.assertEqual(faults(Worlds(Plain(framework.text())), found, [], record), [])
        told = [one for sentence in Narrator(view).refutation(found) for one in sentence.all()]
        self.assertEqual([f"{one.number} {plain(one.text, str)}{cited(one.cites)}" for one in told], [
            "1 It doesn't have anything that speaks against 1. Suppose it did:",
            "2 No rule gives 3, so it can't be derived.",
            "3 No rule gives 4, so it can't be derived.",
            "4 It can't be that only 3 and 4 speak against 1, it has something that speaks against 1, it doesn't "
            "derive 3 and it doesn't derive 4. That can't be. [1, 2]",
            "5 Since it doesn't have anything that speaks against 1, it doesn't attack 1. [1]",
            "6 It doesn't attack 1, which speaks against 2: it doesn't defend 2. That can't be.",
        ])

    def test_either_of_two_contraries(self):
        """The photograph: print stands where both ways against it are shut, and falls to either."""
        framework = self.example("photograph.aba")
        found = reasons(framework, "EE-PR", seconds=SECONDS)
        self.assertEqual(found.sets, [(1, 3, 5), (2, 4), (2, 5), (3, 4)])
        first = next(one for one in found.sections if one.heading.startswith("Set 1"))
        self.assertEqual([found.fill(one.text) for one in first.sentences], [
            "Print stands: only rights and objection speak against it; rights needs stamp, which is out; objection "
            "needs letter, which is out.",
            "Remounted stands: only stamp speaks against it, which falls.",
            "Call stands: only letter speaks against it, which falls.",
            "Stamp falls: remounted speaks against it, and it is assumed.",
            "Letter falls: call speaks against it, and it is assumed.",
        ])
        said = [found.fill(one.text) for section in found.sections for one in section.sentences]
        self.assertIn("Print falls: rights speaks against it, and that follows.", said)
        self.assertIn("Print falls: objection speaks against it, and that follows.", said)

    def test_all_contraries_shut_out(self):
        framework = Framework.of_rules([1, 2, 3], {1: (2, 3), 2: 1, 3: 1}, [])
        found = reasons(framework, "EE-PR", seconds=SECONDS)
        said = [found.fill(one.text) for section in found.sections for one in section.sentences]
        self.assertEqual(said[0], "1 stands: only 2 and 3 speak against it, and both fall.")
        framework = Framework.of_rules([1, 2, 4], {1: (2, 3, 5), 2: (4, 6)}, [(5, [2])])
        self.assertEqual(self.section(framework, "SE-GR", None, "The grounded set"), [
            "It assumes 1 and 4.",
            "1 1 stands: only 2, 3 and 5 speak against it; 2 falls; 3 has no rule; 5 needs 2, which is out.",
            "2 4 stands: nothing speaks against it.",
            "3 2 falls: 4 speaks against it, and it is assumed.",
        ])

    def test_sentences_on_several_contraries(self):
        """Each way in which an axiom on all contraries of 1, which are 2 and 3, may speak."""
        view = View(Framework.of_rules([1, 2], {1: (2, 3)}, [(3, [])]))
        walk_of = lambda k: (Axiom("B18", (k, 1, 1, 2)), Axiom("B18", (k, 1, 3, 3)), Axiom("B19", (k, 1, 4)))
        for group, k, conclusion, said in (
            ("B3", 1, "Der:2:1", "it has none of what speaks against 1 (2 and 3), so it doesn't attack 1"),
            ("B3", 1, "Der:1:2", "it attacks 1, and of what speaks against 1 (2 and 3) it can only have 2; so it "
                                 "assumes 2"),
            ("B3", 1, None, "it attacks 1, but has none of what speaks against 1 (2 and 3)"),
            ("B14", 2, "Member:1", "it shuts out all that speaks against 1 (2 and 3), so it assumes 1"),
            ("B14", 2, "Der:2:3", "it doesn't assume 1, so something that speaks against 1 (2 and 3) stays open; only "
                                  "3 may, so it leaves 3 open"),
            ("B14", 2, None, "it shuts out all that speaks against 1 (2 and 3), but doesn't assume 1"),
            ("B15", 1, "Member:1", "it must assume or attack 1; it has none of what speaks against 1 (2 and 3), so it "
                                   "assumes 1"),
            ("B15", 1, "Der:1:3", "it must assume or attack 1; it doesn't assume it, and of what speaks against 1 (2 "
                                  "and 3) it can only have 3, so it derives 3"),
            ("B15", 1, None, "it neither assumes 1 nor has anything that speaks against 1 (2 and 3)"),
        ):
            steps = (Axiom(group, (1,)), *walk_of(k))
            concluded = None if conclusion is None else literal_of(conclusion)
            record = Record(group, concluded, (), records.facts_of(view, steps), steps)
            self.assertEqual(plain(Wording(view).of(record), str), said)
            self.assertEqual(only(record, "contraries"), [(1, (2, 3))])

    def test_grounded(self):
        found = self.section(self.example("rivals.af"), "SE-GR", None, "The grounded set")
        self.assertEqual(found[1:], [
            "1 Open stay 1 (2 attacks it), 2 (1 attacks it) and 3 (2 attacks it): nothing in the set answers that.",
        ])


class BadInput(unittest.TestCase):
    """What isn't accepted gives no reasons; what users write does no harm."""

    def run_words(self, *arguments):
        out, errors = io.StringIO(), io.StringIO()
        with contextlib.redirect_stdout(out), contextlib.redirect_stderr(errors):
            status = main(list(arguments))
        return status, out.getvalue(), errors.getvalue()

    def test_a_certificate_of_another_framework(self):
        one, other = Framework.of_attacks([(1, 2), (2, 1), (2, 3)]), Framework.of_attacks([(1, 2), (2, 1), (1, 3)])
        answer = solve(one, "EE-PR", seconds=SECONDS)
        with self.assertRaises(ArgueError):
            reasons(other, "EE-PR", None, answer, seconds=SECONDS)

    def test_a_case_with_names(self):
        text = "late: It came late.\nlate attacks noneed\nnoneed attacks refund\nnoneed: No.\nrefund: Money back.\n"
        with tempfile.TemporaryDirectory() as folder:
            case = Path(folder, "mine.case")
            case.write_text(text)
            status, out, errors = self.run_words("-p", "DS-PR", "-a", "refund", "-f", str(case))
            self.assertEqual((status, errors), (0, ""))
            self.assertIn("every preferred set holds refund", out)
            status, out, errors = self.run_words("-p", "DS-PR", "-a", "refun", "-f", str(case))
            self.assertEqual((status, out), (1, ""))
            self.assertIn("UnknownName", errors)

    def test_a_name_where_a_number_is_asked_for(self):
        with tempfile.TemporaryDirectory() as folder:
            path = Path(folder, "numbers.af")
            path.write_text("p af 2\n1 2\n")
            status, out, errors = self.run_words("-p", "DS-PR", "-a", "one", "-f", str(path))
        self.assertEqual((status, out), (1, ""))
        self.assertIn("asks about a number", errors)

    def test_numbers_without_sentences(self):
        pairs = [(2 * k + 1, 2 * k + 2) for k in range(6)] + [(2 * k + 2, 2 * k + 1) for k in range(6)]
        framework = Framework.of_attacks([*pairs, *[(2 * k + 2, 13) for k in range(6)]])
        told = reasons(framework, "DC-PR", query=13, seconds=SECONDS)
        self.assertIn("13", told.text())
        self.assertNotIn("None", told.text())

    def test_a_truncated_certificate(self):
        framework = Framework.of_attacks([(1, 2), (2, 1), (2, 3)])
        answer = solve(framework, "EE-PR", seconds=SECONDS)
        with self.assertRaises(ArgueError):
            reasons(framework, "EE-PR", None, answer, answer.certificate[:-8], seconds=SECONDS)
        with tempfile.TemporaryDirectory() as folder:
            paths = [Path(folder, name) for name in ("framework", "answer", "certificate", "page.html")]
            for path, text in zip(paths, (framework.text(), "w 1 3\nw 2\n", answer.certificate[:-8])):
                path.write_text(text)
            given = ["-p", "EE-PR", "-f", str(paths[0]), "-r", str(paths[1]), "-c", str(paths[2])]
            status, _, errors = self.run_words(*given, "--page", str(paths[3]))
            self.assertEqual(status, 1)
            self.assertIn("CertificateFault", errors)
            self.assertFalse(paths[3].exists())

    def test_an_answer_in_files(self):
        framework = Framework.of_attacks([(1, 2), (2, 1), (2, 3)], names={1: "one"})
        answer = solve(framework, "EE-PR", seconds=SECONDS)
        with tempfile.TemporaryDirectory() as folder:
            paths = [Path(folder, name) for name in ("framework", "answer", "certificate", "page.html")]
            for path, text in zip(paths, (framework.text(), "w 1 3\n# a comment\nw 2\n", answer.certificate)):
                path.write_text(text)
            given = ["-p", "EE-PR", "-f", str(paths[0]), "-r", str(paths[1]), "-c", str(paths[2])]
            status, out, errors = self.run_words(*given)
            self.assertEqual((status, errors), (0, ""))
            self.assertIn("There are two: set 1, with one; set 2, with 2.", out)
            self.assertEqual(self.run_words(*given, "--page", str(paths[3]))[:2], (0, ""))
            self.assertIn("Checked by <code>argue check</code>", paths[3].read_text())

    def test_a_wrong_step(self):
        framework = Framework.of_attacks([(1, 2), (2, 1), (2, 3)])
        answer = solve(framework, "EE-PR", seconds=SECONDS)
        with self.assertRaises(NotAccepted):
            reasons(framework, "EE-PR", None, answer, answer.certificate.replace("s 2", "s 1"), seconds=SECONDS)

    def test_html_in_texts(self):
        evil = '<script>alert("x")</script> & "quotes" \'single\' ]]> --> \u202e right to left?'
        framework = Framework.of_attacks([(1, 2), (2, 1)], texts={1: evil, 2: "long " * 100}, names={2: "b-b"})
        made = page.page(reasons(framework, "EE-PR", seconds=SECONDS))
        self.assertEqual(made.count("<script>"), 1)
        self.assertNotIn("alert(", made.replace("alert(&quot;", ""))
        self.assertIn("&lt;script&gt;", made)
        self.assertNotRegex(made, r"(src|href)\s*=")
        for value in re.findall(r' data-[a-z]+="([^"]*)"', made):
            self.assertRegex(value, r"^[-0-9 hsou]*$")

    def test_words_that_do_not_fit(self):
        missing = self.run_words("-p", "EE-PR", "-f", "/nowhere/at/all.af")
        self.assertEqual(missing[0], 1)
        self.assertIn("/nowhere/at/all.af", missing[2])
        wrong = self.run_words("-p", "EE-XX", "-f", str(EXAMPLES / "two.af"))
        self.assertEqual(wrong[0], 1)
        self.assertIn("Usage", wrong[2])
        unknown = self.run_words("-p", "DC-PR", "-a", "9", "-f", str(EXAMPLES / "two.af"))
        self.assertIn("UnknownArgument", unknown[2])

    def test_no_arguments(self):
        self.assertIn("nothing", reasons(Framework.of_attacks([], size=0), "EE-PR", seconds=SECONDS).text())

    def test_many_arguments(self):
        framework = Framework.of_attacks([(n, n + 1) for n in range(1, 10_000)])
        found = reasons(framework, "EE-PR", seconds=300)
        made = page.page(found)
        self.assertNotIn("<svg", made)
        self.assertIn("These reasons take", found.text() + made) if any(s.summary for s in found.sections) else None

    def test_each_task_of_the_examples_has_its_text_and_page(self):
        attacks = (("inheritance.af", 4), ("loops.af", 2), ("self.af", 1))
        rules = (("anticoagulant.aba", 8), ("photograph.aba", 1))
        for name, number in attacks + rules:
            framework = Framework.from_file(EXAMPLES / name)
            for task in framework.tasks:
                found = reasons(framework, task, number if task.startswith("D") else None, seconds=SECONDS)
                for text in (found.text(), found.text(full=True), page.page(found)):
                    self.assertNotRegex(text, "[\ue000-\ue003]|\\?\\?|None", task)

    def test_each_sentence_is_tied_to_what_it_names(self):
        found = reasons(Framework.from_file(EXAMPLES / "anticoagulant.aba"), "EE-ST", seconds=SECONDS)
        made = page.page(found)
        nodes = set(re.findall(r'<g class="node[^"]*" data-n="([0-9]+)"', made))
        self.assertEqual(len(nodes), 14)
        edges = {pair for marks in re.findall(r'<g class="edge[^"]*" data-e="([^"]*)"', made) for pair in marks.split()}
        for one in re.findall(r"<li class=\"s[^>]*>", made):
            told = dict(re.findall(r' data-([a-z])="([^"]*)"', one))
            self.assertLessEqual(set(told.get("a", "").split()), nodes)
            self.assertLessEqual(set(told.get("e", "").split()), edges)
            for paragraph in told.get("p", "").split():
                self.assertIn(f'id="p{paragraph}"', made)


if __name__ == "__main__":
    unittest.main()
