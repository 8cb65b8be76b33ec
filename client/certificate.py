"""What a certificate holds: atoms, the axioms of both kinds, claims, and the text with its steps.

An atom is a tuple of its name and numbers, such as `("Member", 3)`; a `Literal` adds a sign. The axioms are one row
each in AXIOMS. `claims_of` says what the refutations behind an answer refute, in order; a certificate leaves that
unsaid. """
from __future__ import annotations

from dataclasses import dataclass, field
from typing import Iterable, Iterator, NamedTuple, Optional, Sequence

from burgaouez import Framework, Kind, No, Numbers, Sets, Yes

END = 1_000_001
OWN, REST = 1, 2
MODES = ("Cf", "Ad", "Co", "St")
FACTS = frozenset("Live Attack Gap Asm Con ConGap Head HGap Body BGap".split())

# Each axiom as the names of its numbers, and its clause. B9, A14 and B16 have one row for each first number.
AXIOMS = {
    "A1": ("a", "-Cf -Member:a Live:a"),
    "A2": ("b a", "-Cf -Attack:b:a -Member:a -Member:b"),
    "A3": ("b a", "-Ad -Attack:b:a -Member:a Tail:b:1"),
    "A4": ("b a", "-Attack:b:a -Member:b Tail:a:1"),
    "A5": ("a i j", "-Tail:a:i -Gap:a:i:j Member:j Tail:a:j+1"),
    "A6": ("a i", "-Tail:a:i -Gap:a:i:END"),
    "A7": ("a", "-Co -Live:a Member:a Unmet:a:1"),
    "A8": ("a i j", "-Unmet:a:i -Gap:a:i:j -Tail:j:1 Unmet:a:j+1"),
    "A9": ("a i", "-Unmet:a:i -Gap:a:i:END"),
    "A10": ("a", "-St -Live:a Member:a Tail:a:1"),
    "A11": ("a", "-Range:a Member:a Tail:a:1"),
    "A12": ("a", "-Member:a Range:a"),
    "A13": ("a", "-Tail:a:1 Range:a"),
    "A14 1": ("", "-Ad Cf"),
    "A14 2": ("", "-Co Ad"),
    "A14 3": ("", "-St Co"),
    "B1": ("a", "-Cf -Member:a Asm:a"),
    "B2": ("a", "-Member:a Der:1:a"),
    "B3": ("a", "-Asm:a Hit:1:a:1 Der:2:a"),
    "B4": ("k", "-Der:k:0"),
    "B5": ("k r h", "-Head:r:h Miss:k:r:1 Der:k:h"),
    "B6": ("k r x", "-Body:r:x Der:k:x Miss:k:r:1"),
    "B7": ("k r i j", "-Miss:k:r:i -BGap:r:i:j -Der:k:j Miss:k:r:j+1"),
    "B8": ("k r i", "-Miss:k:r:i -BGap:r:i:END"),
    "B9 1": ("x", "-Der:1:x Member:x Sup:1:x:1"),
    "B9 2": ("x", "-Der:2:x Asm:x Sup:2:x:1"),
    "B9 3": ("a c", "-Der:2:a -Con:a:c -Der:1:c"),
    "B10": ("k x i j", "-Sup:k:x:i -HGap:x:i:j -Miss:k:j:1 Sup:k:x:j+1"),
    "B11": ("k x i", "-Sup:k:x:i -HGap:x:i:END"),
    "B12": ("a c", "-Cf -Con:a:c -Member:a -Der:1:c"),
    "B13": ("a c", "-Ad -Con:a:c -Member:a -Der:2:c"),
    "B14": ("a", "-Co -Asm:a Hit:2:a:1 Member:a"),
    "B15": ("a", "-St -Asm:a Member:a Hit:1:a:1"),
    "B16 1": ("", "-Ad Cf"),
    "B16 2": ("", "-Co Ad"),
    "B16 3": ("", "-St Co"),
    "B18": ("k a i j", "-Hit:k:a:i -ConGap:a:i:j Der:k:j Hit:k:a:j+1"),
    "B19": ("k a i", "-Hit:k:a:i -ConGap:a:i:END"),
}
SEVERAL_ROWS = ("A14", "B9", "B16")

Atom = tuple


class Literal(NamedTuple):
    """An atom, or its negation."""

    positive: bool
    atom: Atom

    def __neg__(self) -> Literal:
        return Literal(not self.positive, self.atom)

    def __str__(self) -> str:
        return ("" if self.positive else "-") + ":".join(map(str, self.atom))


class Axiom(NamedTuple):
    """An axiom's name with its numbers."""

    name: str
    numbers: Numbers

    @property
    def row(self) -> str:
        """The key in AXIOMS, or `B17`."""
        return f"{self.name} {self.numbers[0]}" if self.name in SEVERAL_ROWS else self.name

    def __str__(self) -> str:
        return " ".join(map(str, (self.name, *self.numbers)))


class Side(NamedTuple):
    """A side step: the side clause of this number."""

    number: int


class Derived(NamedTuple):
    """A derived step: its clause and the earlier steps that show it."""

    clause: tuple[Literal, ...]
    hints: Numbers


def yes(*atom) -> Literal:
    """The positive literal of an atom."""
    return Literal(True, atom)


def no(*atom) -> Literal:
    """The negative literal of an atom."""
    return Literal(False, atom)


# The mode of the sets whose widest ranges are the extensions.
WIDEST = {"SST": yes("Ad"), "STG": yes("Cf")}


def literal_of(text: str) -> Literal:
    """Reads a literal; raises ValueError for a text that is none."""
    name, *numbers = text.removeprefix("-").split(":")
    return Literal(not text.startswith("-"), (name, *map(int, numbers)))


def clause_of(axiom: Axiom) -> list[Literal]:
    """The clause of an axiom.

    >>> [str(literal) for literal in clause_of(Axiom("A4", (1, 2)))]
    ['-Attack:1:2', '-Member:1', 'Tail:2:1']
    """
    if axiom.name == "B17":
        return _loop_clause(axiom.numbers)
    names, row = AXIOMS[axiom.row]
    numbers = axiom.numbers[1:] if axiom.name in SEVERAL_ROWS else axiom.numbers
    value = {"END": END, **dict(zip(names.split(), numbers, strict=True))}
    return [_filled(text, value) for text in row.split()]


def _filled(text: str, value: dict[str, int]) -> Literal:
    name, *fields = text.removeprefix("-").split(":")
    numbers = []
    for letter in fields:
        stem, plus, more = letter.partition("+")
        numbers.append((value[stem] if stem in value else int(stem)) + (int(more) if plus else 0))
    return Literal(not text.startswith("-"), (name, *numbers))


class Loop(NamedTuple):
    """What a loop clause names: statements that could only be derived from each other. Each row has a statement and,
    for each of its rules, the rule's number with 0, or with a body statement that is in the circle."""

    closure: int
    statement: int
    rows: tuple[tuple[int, tuple[tuple[int, int], ...]], ...]


def loop_of(numbers: Numbers) -> Loop:
    """Reads the numbers of a loop clause."""
    closure, statement, count = numbers[:3]
    circle, rest = numbers[3 : 3 + count], list(numbers[3 + count :])
    rows = []
    for member in circle:
        pairs, rest = rest[0], rest[1:]
        rows.append((member, tuple(zip(rest[0 : 2 * pairs : 2], rest[1 : 2 * pairs : 2]))))
        rest = rest[2 * pairs :]
    return Loop(closure, statement, tuple(rows))


def _loop_clause(numbers: Numbers) -> list[Literal]:
    loop = loop_of(numbers)
    clause = [no("Der", loop.closure, loop.statement)]
    clause += [yes("Member" if loop.closure == OWN else "Asm", member) for member, _ in loop.rows]
    for member, pairs in loop.rows:
        start = 1
        for rule, _ in pairs:
            clause += [no("HGap", member, start, rule)] if start < rule else []
            start = rule + 1
        clause.append(no("HGap", member, start, END))
    for _, pairs in loop.rows:
        clause += [no("Miss", loop.closure, r, 1) if body == 0 else no("Body", r, body) for r, body in pairs]
    return clause


# What the framework alone fixes


class View:
    """A framework with the look-ups that facts need."""

    def __init__(self, framework: Framework):
        self.framework = framework
        self.is_rules = framework.kind is Kind.RULES
        self.members: Sequence[int] = framework.members
        self.assumed = set(framework.assumptions)
        self.contraries = {a: framework.contraries.get(a, ()) for a in framework.assumptions}
        self.attackers: dict[int, list[int]] = {a: [] for a in framework.arguments}
        self.targets: dict[int, list[int]] = {a: [] for a in framework.arguments}
        for attacker, target in sorted(framework.attacks):
            self.attackers[target].append(attacker)
            self.targets[attacker].append(target)
        self.rules = {rule.number: (rule.head, tuple(sorted(rule.body))) for rule in framework.rules}
        self.rules_for: dict[int, list[int]] = {x: [] for x in framework.atoms}
        for number, (head, _) in self.rules.items():
            self.rules_for[head].append(number)

    def closure(self, given: Iterable[int]) -> set[int]:
        """All that follows from what is given; of attacks that is what is given."""
        derived = set(given)
        left = [rule for rule in self.rules.values() if rule[0] not in derived]
        while True:
            ready = {head for head, body in left if derived.issuperset(body)}
            if not ready:
                return derived
            derived |= ready
            left = [rule for rule in left if rule[0] not in derived]

    def attacked(self, chosen: Iterable[int]) -> set[int]:
        """What a set of arguments attacks, or the assumptions that a set of assumptions attacks."""
        if self.is_rules:
            derived = self.closure(chosen)
            return {a for a, row in self.contraries.items() if not derived.isdisjoint(row)}
        return {target for one in chosen for target in self.targets[one]}

    def range_of(self, chosen: Iterable[int]) -> set[int]:
        """A set of arguments with what it attacks."""
        return set(chosen) | self.attacked(chosen)

    def fact(self, atom: Atom) -> Optional[bool]:
        """The value of an atom that the framework fixes, else None."""
        if atom[0] not in FACTS:
            return None
        name, *numbers = atom
        return getattr(self, "_is_" + name.lower())(*numbers)

    def _is_live(self, a):
        return a in self.attackers

    def _is_attack(self, b, a):
        return b in self.attackers.get(a, ())

    def _is_gap(self, a, i, j):
        return not any(i <= b < j for b in self.attackers.get(a, ()))

    def _is_asm(self, a):
        return a in self.assumed

    def _is_con(self, a, c):
        return c in self.contraries.get(a, ())

    def _is_congap(self, a, i, j):
        return a in self.assumed and not any(i <= c < j for c in self.contraries[a])

    def _is_head(self, r, h):
        return r in self.rules and self.rules[r][0] == h

    def _is_hgap(self, h, i, j):
        return not any(i <= r < j for r in self.rules_for.get(h, ()))

    def _is_body(self, r, x):
        return r in self.rules and x in self.rules[r][1]

    def _is_bgap(self, r, i, j):
        return r in self.rules and not any(i <= x < j for x in self.rules[r][1])


# What is refuted


@dataclass(frozen=True)
class SideClause:
    """A clause that an answer's sets allow: the position isn't what `kind` says of the sets of these numbers.

    `kind` is `within`, `is`, `wider` (its verdicts lie within those of the set), or `unattacked`.
    """

    kind: str
    sets: Numbers
    literals: tuple[Literal, ...]


@dataclass(frozen=True)
class Claim:
    """No position has all goals and makes all sides true. `about` says which refutation of the answer's row it is."""

    goals: tuple[Literal, ...]
    sides: tuple[SideClause, ...] = ()
    about: str = ""


def outside(view: View, chosen: Numbers, number: int) -> SideClause:
    """The position holds something that isn't in the set."""
    members = set(chosen)
    return SideClause("within", (number,), tuple(yes("Member", x) for x in view.members if x not in members))


def differs(view: View, chosen: Numbers, number: int) -> SideClause:
    """The position isn't the set."""
    beyond = outside(view, chosen, number).literals
    return SideClause("is", (number,), beyond + tuple(no("Member", e) for e in chosen))


def wider(view: View, spread: set[int], numbers: Numbers) -> SideClause:
    """The position has a verdict on something outside of the range of these sets."""
    return SideClause("wider", numbers, tuple(yes("Range", x) for x in view.members if x not in spread))


def claims_of(view: View, task: str, query: Optional[int], answer, sets: Sequence[Numbers]) -> list[Claim]:
    """What the refutations of a certificate with these sets refute for an answer, in order."""
    problem, semantics = task.split("-")
    if semantics == "ID":
        return _ideal_claims(view, sets)
    if problem == "EE" and isinstance(answer, Sets):
        return _all_claims(view, semantics, answer.sets)
    if _shows_one_set(problem, answer):
        chosen = answer.sets[0] if isinstance(answer, Sets) else answer.witness
        return _evidence_claims(view, semantics, chosen)
    if semantics == "GR" or task == "DS-CO":
        return []
    if problem in ("SE", "EE"):
        return [Claim((yes("St"),))]
    goal = yes("Der", OWN, query) if view.is_rules else yes("Member", query)
    bad = goal if problem == "DC" else -goal
    if semantics in WIDEST:
        return _range_claims(view, (WIDEST[semantics], bad), sets, _ranges(view, sets))
    mode = yes("St") if semantics == "ST" else yes("Ad")
    return [Claim((mode, bad), tuple(outside(view, one, n) for n, one in enumerate(sets, 1)))]


def _shows_one_set(problem: str, answer) -> bool:
    if problem == "SE":
        return isinstance(answer, Sets)
    return isinstance(answer, Yes if problem == "DC" else No) and problem != "EE"


def _evidence_claims(view: View, semantics: str, chosen: Numbers) -> list[Claim]:
    if semantics == "PR":
        return [Claim((yes("Ad"), *(yes("Member", e) for e in chosen)), (outside(view, chosen, 1),), "largest")]
    if semantics in WIDEST:
        spread = view.range_of(chosen)
        ranges = tuple(yes("Range", r) for r in sorted(spread))
        return [Claim((WIDEST[semantics], *ranges), (wider(view, spread, (1,)),), "widest")]
    return []


def _ideal_claims(view: View, sets: Sequence[Numbers]) -> list[Claim]:
    ideal, others = sets[0], sets[1:]
    shunned = sorted(set().union(*map(view.attacked, others)))
    attacked = SideClause("unattacked", (1,), tuple(_is_attacked(view, e) for e in ideal))
    held = tuple(yes("Member", e) for e in ideal)
    return [
        Claim((yes("Ad"),), (attacked,), "unattacked"),
        Claim((yes("Ad"), *held, *(no("Member", u) for u in shunned)), (outside(view, ideal, 1),), "ideal"),
    ]


def _is_attacked(view: View, number: int) -> Literal:
    """The position attacks a member of a set."""
    return yes("Hit", OWN, number, 1) if view.is_rules else yes("Tail", number, 1)


def _all_claims(view: View, semantics: str, sets: Sequence[Numbers]) -> list[Claim]:
    if semantics in WIDEST:
        return _range_claims(view, (WIDEST[semantics],), sets, _ranges(view, sets), listed=True)
    mode = {"CO": "Co", "ST": "St", "PR": "Ad"}[semantics]
    made = outside if semantics == "PR" else differs
    return [Claim((yes(mode),), tuple(made(view, one, n) for n, one in enumerate(sets, 1)))]


def _ranges(view: View, sets: Sequence[Numbers]) -> list[set[int]]:
    return [view.range_of(one) for one in sets]


def _range_claims(view: View, goals: tuple, sets, spreads, listed: bool = False) -> list[Claim]:
    """Without `listed` each set has a range of its own; with it each distinct range has one."""
    kinds: list[tuple[set[int], list[int]]] = []
    for number, spread in enumerate(spreads, 1):
        same = next((one for one in kinds if listed and one[0] == spread), None)
        if same is None:
            kinds.append((spread, [number]))
        else:
            same[1].append(number)
    claims = [Claim(goals, tuple(wider(view, spread, tuple(of)) for spread, of in kinds), "wider")]
    for spread, of in kinds:
        ranges = tuple(yes("Range", r) for r in sorted(spread))
        sides = tuple(differs(view, sets[n - 1], n) for n in of) if listed else ()
        claims.append(Claim((*goals, *ranges), sides, "same"))
    return claims


# The text


Step = Axiom | Side | Derived


@dataclass
class Certificate:
    """The sets and, for each refutation, the steps, which are numbered from 1."""

    sets: list[Numbers] = field(default_factory=list)
    refutations: list[list[Step]] = field(default_factory=list)

    def text(self) -> str:
        """The certificate as a file has it."""
        lines = ["cert 1", *(" ".join(map(str, ("w", *one))) for one in self.sets)]
        for steps in self.refutations:
            lines += ["r", *map(_step_text, steps)]
        return "\n".join([*lines, "end", ""])


def _step_text(step: Step) -> str:
    match step:
        case Axiom():
            return f"a {step}"
        case Side():
            return f"s {step.number}"
    return " ".join(["d", *map(str, step.clause), "0", *map(str, step.hints)])


def _steps_of(fields: list[str]) -> Step:
    match fields:
        case ["a", name, *numbers]:
            return Axiom(name, tuple(map(int, numbers)))
        case ["s", number]:
            return Side(int(number))
    end = fields.index("0")
    return Derived(tuple(map(literal_of, fields[1:end])), tuple(map(int, fields[end + 1 :])))


def read_certificate(text: str) -> Certificate:
    """Reads a certificate that the program has accepted."""
    certificate = Certificate()
    for fields in _kept_lines(text):
        if fields[0] == "w":
            certificate.sets.append(tuple(map(int, fields[1:])))
        elif fields[0] == "r":
            certificate.refutations.append([])
        elif fields[0] in ("a", "s", "d"):
            certificate.refutations[-1].append(_steps_of(fields))
    return certificate


def _kept_lines(text: str) -> Iterator[list[str]]:
    for line in text.split("\n"):
        fields = line.split()
        if fields and not fields[0].startswith("#"):
            yield fields
