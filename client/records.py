"""Reads the refutations of an accepted certificate as records: one for each inference that there is something to say
of.

A record has what it concludes, from which earlier conclusions, and the facts of the framework that it speaks. Inner
links of a chain of axioms have no record of their own. Sentences and tests are made from records alone. """
from __future__ import annotations

from dataclasses import dataclass, field
from typing import Iterable, Iterator, NamedTuple, Optional, Sequence, Union

from certificate import (
    END, MODES, OWN, Axiom, Claim, Derived, Literal, Side, Step, View, clause_of, loop_of, no,
)

# The axioms of one chain make one sentence, which is the one of the chain's name.
CHAINS = {
    "A6": "A5",
    "A9": "A8",
    **dict.fromkeys(("B6", "B7", "B8"), "B5"),
    **dict.fromkeys(("B9 1", "B9 2", "B10", "B11"), "B9"),
    "B19": "B18",
}
# Definitions, of which nothing is said: freedom from conflict of numbers that are there, what assuming is, what modes
# have.
SILENT = ("A1", "A14 1", "A14 2", "A14 3", "B1", "B2", "B4", "B16 1", "B16 2", "B16 3")
# Where a record's steps are of several groups, the first of these in it names it.
RANKS = ("lemma", "side", "B17", "B9", "B5", "B3", "B14", "B15")


class Fact(NamedTuple):
    """What a sentence says of the framework: `attacks` with attacker and target; `attackers` with an argument and all
    of its attackers; `some attackers` with an argument, the numbers from and to which it looks, and its attackers
    there; `contrary` with an assumption and a contrary of it; `contraries` with an assumption and all of its
    contraries; `rule` with number, head and body; `rules` with a statement and the numbers of all of its rules;
    `some contraries` and `some rules` as with attackers."""

    name: str
    values: tuple


@dataclass
class Record:
    """One inference. Without a conclusion it is a clash: its premises can't hold together.

    `group` is the axiom, chain or kind of step that gives the sentence; `number` is the paragraph; `side` is the
    number of the side clause it rests on; `lemma` the step of a lemma. """

    group: str
    conclusion: Optional[Literal]
    premises: tuple[Literal, ...]
    facts: tuple[Fact, ...]
    steps: tuple[Step, ...]
    side: Optional[int] = None
    lemma: Optional[int] = None
    number: int = 0

    @property
    def given(self) -> str:
        """The conclusion's name with its sign, or `clash`."""
        if self.conclusion is None:
            return "clash"
        return ("" if self.conclusion.positive else "-") + self.conclusion.atom[0]


@dataclass
class Case:
    """A proof within a proof: its claim is the negation of what it supposes."""

    claim: Literal
    items: list[Union[Record, Case]]
    number: int = 0

    @property
    def supposed(self) -> Literal:
        """What the case supposes."""
        return -self.claim


@dataclass
class Lemma:
    """A derived step that is used more than once, told before what uses it."""

    step: int
    supposed: tuple[Literal, ...]
    sides: tuple[int, ...]
    items: list[Union[Record, Case]]
    number: int = 0


@dataclass
class Refutation:
    """A claim with what is supposed of it, lemmas first."""

    claim: Claim
    supposed: tuple[Literal, ...]
    sides: tuple[int, ...]
    items: list[Union[Record, Case]]
    lemmas: list[Lemma] = field(default_factory=list)


class _Reason(NamedTuple):
    hint: int
    premises: tuple[Literal, ...]


def walk(items: Iterable[Union[Record, Case]]) -> Iterator[Record]:
    """All records, those of cases too."""
    for item in items:
        if isinstance(item, Case):
            yield from walk(item.items)
        else:
            yield item


def read_refutation(view: View, claim: Claim, steps: Sequence[Step]) -> Refutation:
    """Reads the steps of an accepted refutation."""
    return _Reader(view, claim, steps).whole()


class _Reader:
    def __init__(self, view: View, claim: Claim, steps: Sequence[Step]):
        self.view = view
        self.claim = claim
        self.steps = steps
        self.clauses = [self._clause(step) for step in steps]
        self.lemmas: list[Lemma] = []
        self.uses = self._count_uses()

    def _clause(self, step: Step) -> list[Literal]:
        match step:
            case Axiom():
                return list(dict.fromkeys(clause_of(step)))
            case Side():
                literals = self.claim.sides[step.number - 1].literals
                return [no("Ask", step.number), *literals]
        return list(dict.fromkeys(step.clause))

    def _is_fixed(self, literal: Literal) -> bool:
        return literal.atom[0] == "Ask" or self.view.fact(literal.atom) is not None

    def _count_uses(self) -> dict[int, int]:
        """How often each derived step is a hint of a step that the last one reaches."""
        uses: dict[int, int] = {len(self.steps): 1}
        for number in range(len(self.steps), 0, -1):
            step = self.steps[number - 1]
            if isinstance(step, Derived) and uses.get(number):
                reasons, clash = self._played(number)
                for hint in {reason.hint for reason in self._reached(reasons, clash).values()} | {clash.hint}:
                    uses[hint] = uses.get(hint, 0) + 1
        return uses

    def whole(self) -> Refutation:
        """The whole refutation, from its last step."""
        number = len(self.steps)
        step = self.steps[number - 1]
        if isinstance(step, Derived):
            items, used = self._items(number, {})
        else:
            reason = _Reason(number, tuple(-literal for literal in self.clauses[number - 1]))
            record = self._record(None, reason, {}, set())
            items, used = [record], set(reason.premises)
        supposed = tuple(goal for goal in self.claim.goals if goal in used or goal.atom[0] in MODES)
        sides = {record.side for record in walk(items)} | {n for lemma in self.lemmas for n in lemma.sides}
        return Refutation(self.claim, supposed, tuple(sorted(sides - {None})), items, self.lemmas)

    def _played(self, number: int) -> tuple[dict[Literal, _Reason], _Reason]:
        """What the hints of a derived step give in turn, and its clash."""
        step = self.steps[number - 1]
        true = {-literal for literal in step.clause}
        reasons: dict[Literal, _Reason] = {}
        for hint in step.hints:
            clause = self.clauses[hint - 1]
            left = [literal for literal in clause if -literal not in true]
            premises = tuple(-literal for literal in clause if literal not in left)
            if not left:
                return reasons, _Reason(hint, premises)
            reasons[left[0]] = _Reason(hint, premises)
            true.add(left[0])
        raise ValueError("the hints of a step come to no clash")

    def _reached(self, reasons: dict[Literal, _Reason], clash: _Reason) -> dict[Literal, _Reason]:
        """Those of the reasons that the clash rests on, in order."""
        wanted = set(clash.premises)
        for literal, reason in reversed(reasons.items()):
            if literal in wanted:
                wanted.update(reason.premises)
        return {literal: reason for literal, reason in reasons.items() if literal in wanted}

    def _items(self, number: int, outer: dict[Literal, _Reason]) -> tuple[list[Union[Record, Case]], set[Literal]]:
        """The records of a derived step, and all literals that they use; `outer` has the links of open scopes that
        have no record of their own."""
        mine, clash = self._played(number)
        mine = self._reached(mine, clash)
        shown = self._shown(mine, clash)
        reasons = dict(outer)
        items: list[Union[Record, Case]] = []
        used: set[Literal] = set(clash.premises)
        for literal, reason in [*mine.items(), (None, clash)]:
            used.update(reason.premises)
            if literal is None and self._is_inlined(reason.hint):
                inner, more = self._items(reason.hint, _links(reasons, shown))
                return items + inner, used | more
            if literal is None or literal in shown:
                items.append(self._item(literal, reason, reasons, shown))
            if literal is not None:
                reasons[literal] = reason
        return items, used

    def _item(self, literal, reason: _Reason, reasons, shown) -> Union[Record, Case]:
        if literal is not None and self._is_inlined(reason.hint):
            return Case(literal, self._items(reason.hint, _links(reasons, shown))[0])
        return self._record(literal, reason, reasons, shown)

    def _is_lemma(self, hint: int) -> bool:
        return isinstance(self.steps[hint - 1], Derived) and not self._is_inlined(hint)

    def _is_inlined(self, hint: int) -> bool:
        return isinstance(self.steps[hint - 1], Derived) and self.uses.get(hint, 0) <= 1

    def _shown(self, reasons: dict[Literal, _Reason], clash: _Reason) -> set[Literal]:
        """The literals of which something is said: the others are inner links or definitions."""
        by_lemma = [one for one in [*reasons.values(), clash] if self._is_lemma(one.hint)]
        kept = {premise for reason in by_lemma for premise in reason.premises if premise.atom[0] not in MODES}
        shown = set()
        for literal, reason in reasons.items():
            step = self.steps[reason.hint - 1]
            inner = is_inner(literal) or self._is_no_assumption(literal)
            if isinstance(step, Derived) or not (inner or self._is_definition(step, literal)):
                shown.add(literal)
            elif literal in kept and not self._is_definition(step, literal):
                shown.add(literal)
        return shown

    def _is_no_assumption(self, literal: Literal) -> bool:
        return self.view.is_rules and literal.atom[0] == "Member" and literal.atom[1] not in self.view.assumed

    def _is_definition(self, step: Step, literal: Literal) -> bool:
        if not isinstance(step, Axiom):
            return False
        if step.row in ("A12", "A13"):
            return literal.positive
        if step.row == "B9 1":
            return step.numbers[1] in self.view.assumed
        return step.row in SILENT

    def _record(self, literal: Optional[Literal], reason: _Reason, reasons, shown) -> Record:
        steps: list[int] = []
        premises: list[Literal] = []
        self._gather(reason, reasons, shown, steps, premises)
        chosen = tuple(self.steps[n - 1] for n in steps)
        lemma = next((n for n in steps if isinstance(self.steps[n - 1], Derived)), None)
        if lemma is not None:
            self._tell_lemma(lemma)
        side = next((step.number for step in chosen if isinstance(step, Side)), None)
        spoken = tuple(step for step in chosen if not self._is_assuming(step))
        group = _group_of(spoken)
        return Record(group, literal, tuple(dict.fromkeys(premises)), facts_of(self.view, spoken), chosen, side, lemma)

    def _is_assuming(self, step: Step) -> bool:
        """Whether a step says that an assumption is derived by being assumed alone."""
        if not isinstance(step, Axiom) or step.name not in ("B9", "B10", "B11"):
            return False
        return step.numbers[0] == OWN and step.numbers[1] in self.view.assumed

    def _gather(self, reason: _Reason, reasons, shown, steps: list[int], premises: list[Literal]) -> None:
        """The steps behind a record, and the premises that are said, depth first."""
        for premise in reason.premises:
            if self._is_fixed(premise):
                continue
            if premise in shown or premise not in reasons:
                premises.append(premise)
            else:
                self._gather(reasons[premise], reasons, shown, steps, premises)
        if reason.hint not in steps:
            steps.append(reason.hint)

    def _tell_lemma(self, number: int) -> None:
        if any(lemma.step == number for lemma in self.lemmas):
            return
        items, used = self._items(number, {})
        supposed = tuple(-lit for lit in self.steps[number - 1].clause if -lit in used and not self._is_fixed(lit))
        sides = tuple(sorted(lit.atom[1] for lit in self.steps[number - 1].clause if lit.atom[0] == "Ask"))
        self.lemmas.append(Lemma(number, supposed, sides, items))


def _links(reasons: dict[Literal, _Reason], shown: set[Literal]) -> dict[Literal, _Reason]:
    """The reasons of what isn't shown."""
    return {literal: reason for literal, reason in reasons.items() if literal not in shown}


def is_inner(literal: Literal) -> bool:
    """Whether a literal is an inner link of a chain, or a mode."""
    name, *numbers = literal.atom
    return name in ("Miss", "Sup", "Hit", *MODES) or (name in ("Tail", "Unmet") and numbers[1] > 1)


def _group_of(steps: Sequence[Step]) -> str:
    """The name of the sentence that a record's steps make."""
    groups = []
    for step in steps:
        match step:
            case Axiom():
                groups.append(CHAINS.get(step.row, step.row))
            case Side():
                groups.append("side")
            case _:
                groups.append("lemma")
    spoken = [group for group in groups if group not in SILENT]
    return next((rank for rank in RANKS if rank in spoken), spoken[-1] if spoken else "mode")


# Facts


# The fact that each walk along numbers gives, and the axioms of the walk.
WALKS = (
    ("attackers", ("A5", "A6")),
    ("attackers", ("A8", "A9")),
    ("contraries", ("B18", "B19")),
    ("rules", ("B10", "B11")),
)


def facts_of(view: View, steps: Sequence[Step]) -> tuple[Fact, ...]:
    """What steps rest on in the framework, in the order in which they speak of it."""
    axioms = [step for step in steps if isinstance(step, Axiom)]
    facts: dict[Fact, None] = {}
    for axiom in axioms:
        for fact in _facts_of_axiom(view, axiom):
            facts[fact] = None
    for name, chain in WALKS:
        for fact in _walked(name, [axiom for axiom in axioms if axiom.name in chain]):
            facts[fact] = None
    for axiom in axioms:
        if axiom.name == "B17":
            facts.update(dict.fromkeys(_loop_facts(view, axiom)))
    return tuple(facts)


def _facts_of_axiom(view: View, axiom: Axiom) -> Iterator[Fact]:
    numbers = axiom.numbers
    match axiom.name:
        case "A2" | "A3" | "A4":
            yield Fact("attacks", numbers)
        case "B12" | "B13":
            yield Fact("contrary", numbers)
        case "B9" if numbers[0] == 3:
            yield Fact("contrary", numbers[1:])
        case "B5" | "B6" | "B7" | "B8":
            yield _rule(view, numbers[1])


def _rule(view: View, number: int) -> Fact:
    return Fact("rule", (number, *view.rules[number]))


def _walked(name: str, axioms: Sequence[Axiom]) -> Iterator[Fact]:
    """What chains have walked along, one fact for each argument or statement."""
    first = 0 if name == "attackers" else 1
    for about in dict.fromkeys(axiom.numbers[first] for axiom in axioms):
        mine = sorted(axiom.numbers[first + 1 :] for axiom in axioms if axiom.numbers[first] == about)
        met = tuple(one[1] for one in mine if len(one) == 2)
        starts, ends = [one[0] for one in mine], [one[1] + 1 if len(one) == 2 else END for one in mine]
        if starts[0] == 1 and ends[-1] == END and starts[1:] == ends[:-1]:
            yield Fact(name, (about, met))
        else:
            yield Fact("some " + name, (about, tuple(zip(starts, ends)), met))


def _loop_facts(view: View, axiom: Axiom) -> Iterator[Fact]:
    for member, pairs in loop_of(axiom.numbers).rows:
        yield Fact("rules", (member, tuple(rule for rule, _ in pairs)))
        for rule, _ in pairs:
            yield _rule(view, rule)
