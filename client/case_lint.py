"""Warns of what may have turned a case without a word: a slip in a name makes another case, and mostly still a case.

    >>> from case import Case
    >>> for warning in warnings_of(Case.from_text("assume a: Yes.\\nb: No.\\nc: Why not?\\nb against a\\n")):
    ...     print(warning)
    line 1 Decision: no rule uses a, so it is what is to be decided
    line 2 UnderivableContrary: nothing leads to b, which is against a, so a always stands
    line 3 NeverUsed: c has a text, and no other line speaks of it

Nothing here asks the program: what follows from some assumptions is computed here. Where one number of a rule, contrary
or assumption of examples/anticoagulant.aba is replaced by another one, 132 of 403 such files are faulty, 228 have other
answers, and of these 222 have a warning or a remark that the file hasn't.
"""
from __future__ import annotations

from collections import Counter
from collections.abc import Iterator
from dataclasses import dataclass
from typing import TYPE_CHECKING, Optional

from burgaouez import Framework, Kind, Rule
from case_text import Attacks, Concludes, Opposes, names_in

if TYPE_CHECKING:
    from case import Case

REMARKS = ("Decision", "KnownAgainst", "Unopposed")
MANY = 2_000  # assumptions past which none is looked at by itself, as that takes a closure each


@dataclass(frozen=True)
class LintWarning:
    """What may be a slip: its name, the name of the case that it is about, and the line where that is first mentioned,
    if the case was read from lines."""

    name: str
    about: str
    says: str
    line: Optional[int] = None

    @property
    def is_remark(self) -> bool:
        """It tells of what sound cases have too, so that a reader sees whether it was meant."""
        return self.name in REMARKS

    def __str__(self) -> str:
        where = "" if self.line is None else f"line {self.line} "
        return f"{where}{self.name}: {self.says}"


class _Uses:
    """Where the numbers of a framework occur."""

    def __init__(self, framework: Framework):
        self.framework = framework
        self.assumed = set(framework.assumptions)
        self.heads = Counter(rule.head for rule in framework.rules)
        self.premises = Counter(number for rule in framework.rules for number in rule.body)
        self.against = Counter(contrary for _, contrary in framework.contrary_pairs)
        self.attackers = Counter(attack.attacker for attack in framework.attacks)
        self.targets = Counter(attack.target for attack in framework.attacks)
        self.derivable = set(framework.closure(framework.assumptions))

    def count(self, number: int) -> int:
        """How many lines speak of a number, its text aside."""
        tables = (self.heads, self.premises, self.against, self.attackers, self.targets)
        roles = (number in self.assumed) + len(self.framework.contraries.get(number, ()))
        return roles + sum(table[number] for table in tables)


def warnings_of(case: Case) -> tuple[LintWarning, ...]:
    """The warnings of a case by the lines that they are about."""
    found = list(_found(case, _Uses(case.framework)))
    lines = _first_lines(case)
    placed = [LintWarning(one.name, one.about, one.says, one.line or lines.get(one.about)) for one in found]
    return tuple(sorted(placed, key=lambda one: one.line or 0))


def _first_lines(case: Case) -> dict[str, int]:
    lines: dict[str, int] = {}
    for statement in case.statements:
        for name in names_in(statement):
            lines.setdefault(name, statement.line)
    return lines


def _found(case: Case, uses: _Uses) -> Iterator[LintWarning]:
    if case.framework.kind is Kind.ATTACKS:
        yield from _lone_arguments(case, uses)
        yield from _self_attacks(case)
        yield from _attacks_twice(case)
    else:
        yield from _underived(case, uses)
        yield from _contraries(case, uses)
        yield from _against_twice(case)
        yield from _unopposed(case, uses)
        yield from _defeated(case)
        yield from _unused(case, uses)
        yield from _dead_rules(case, uses)
        yield from _rules_twice(case)
        yield from _without_text(case)
    yield from _texts_twice(case)


def _lone_arguments(case: Case, uses: _Uses) -> Iterator[LintWarning]:
    for number in case.framework.arguments:
        if uses.count(number) == 0:
            name = case.name(number)
            yield LintWarning("NoAttack", name, f"{name} is in no attack, so it always stands and decides nothing")


def _self_attacks(case: Case) -> Iterator[LintWarning]:
    for attacker, target in case.framework.attacks:
        if attacker == target:
            name = case.name(attacker)
            yield LintWarning("SelfAttack", name, f"{name} attacks itself, so no position can hold it")


def _attacks_twice(case: Case) -> Iterator[LintWarning]:
    seen: set[tuple[str, str]] = set()
    for statement in case.statements:
        for target in statement.targets if isinstance(statement, Attacks) else ():
            pair = (statement.attacker, target)
            if pair in seen:
                says = f"that {pair[0]} attacks {target} is said twice"
                yield LintWarning("AttackTwice", pair[0], says, statement.line)
            seen.add(pair)


def _underived(case: Case, uses: _Uses) -> Iterator[LintWarning]:
    for number in case.framework.atoms:
        if uses.premises[number] and number not in uses.assumed and not uses.heads[number]:
            name = case.name(number)
            yield LintWarning("Underived", name, f"no rule concludes {name}, and nobody assumes it")


def _contraries(case: Case, uses: _Uses) -> Iterator[LintWarning]:
    for assumption, contrary in case.framework.contrary_pairs:
        name, held = case.name(contrary), case.name(assumption)
        if contrary == assumption:
            yield LintWarning("OwnContrary", name, f"{name} is against itself, so no position can hold it")
        elif contrary not in uses.derivable:
            safe = uses.derivable.isdisjoint(case.framework.contraries[assumption])
            so = f"so {held} always stands" if safe else "so that changes nothing"
            yield LintWarning("UnderivableContrary", name, f"nothing leads to {name}, which is against {held}, {so}")


def _unopposed(case: Case, uses: _Uses) -> Iterator[LintWarning]:
    for number in case.framework.assumptions:
        if number not in case.framework.contraries and uses.premises[number]:
            name = case.name(number)
            yield LintWarning("Unopposed", name, f"nothing is against {name}, so it always stands")


def _against_twice(case: Case) -> Iterator[LintWarning]:
    seen: set[tuple[str, str]] = set()
    for statement in case.statements:
        if isinstance(statement, Opposes):
            pair = statement.contrary, statement.assumption
            if pair in seen:
                says = f"that {pair[0]} is against {pair[1]} is said twice"
                yield LintWarning("AgainstTwice", pair[0], says, statement.line)
            seen.add(pair)


def _defeated(case: Case) -> Iterator[LintWarning]:
    """Assumptions that can't be held, whatever else is assumed."""
    framework = case.framework
    known = set(framework.closure(()))
    few = len(framework.assumptions) <= MANY
    for assumption, contraries in framework.contraries.items():
        name, derived = case.name(assumption), framework.closure((assumption,)) if few else ()
        for contrary in contraries:
            against = case.name(contrary)
            if contrary in known:
                says = f"{against} is against {name} and follows from what is known, so {name} never stands"
                yield LintWarning("KnownAgainst", name, says)
            elif contrary in derived and contrary != assumption:
                says = f"from {name} follows {against}, which is against it, so no position can hold {name}"
                yield LintWarning("SelfDefeat", name, says)


def _unused(case: Case, uses: _Uses) -> Iterator[LintWarning]:
    """An assumption with a contrary that no rule uses is a decision, and mostly no slip."""
    for number in case.framework.atoms:
        name = case.name(number)
        if uses.count(number) == 0:
            yield LintWarning("NeverUsed", name, f"{name} has a text, and no other line speaks of it")
        elif uses.premises[number] or uses.against[number]:
            continue
        elif number not in uses.assumed:
            yield LintWarning("ConcludedUnused", name, f"{name} is concluded, and then nothing rests on it")
        elif number not in case.framework.contraries:
            yield LintWarning("AssumedUnused", name, f"nothing is against {name}, and nothing rests on it")
        else:
            yield LintWarning("Decision", name, f"no rule uses {name}, so it is what is to be decided")


def _rule(case: Case, rule: Rule) -> str:
    head = case.name(rule.head)
    return f"{head} if {case.listed(rule.body)}" if rule.body else f"known {head}"


def _dead_rules(case: Case, uses: _Uses) -> Iterator[LintWarning]:
    for rule in case.framework.rules:
        name = case.name(rule.head)
        lacking = [number for number in rule.body if number not in uses.derivable]
        said, line = _rule(case, rule), _line(case, rule)
        if rule.head in rule.body:
            yield LintWarning("OwnPremise", name, f"`{said}` rests on what it concludes", line)
        elif lacking:
            says = f"`{said}` can never be used: nothing leads to {case.listed(lacking)}"
            yield LintWarning("DeadRule", name, says, line)


def _rules_twice(case: Case) -> Iterator[LintWarning]:
    seen: set[tuple[int, frozenset[int]]] = set()
    for rule in case.framework.rules:
        key = rule.head, frozenset(rule.body)
        if key in seen:
            says = f"`{_rule(case, rule)}` is there twice"
            yield LintWarning("RuleTwice", case.name(rule.head), says, _line(case, rule))
        seen.add(key)


def _line(case: Case, rule: Rule) -> Optional[int]:
    """The line of a rule, where the case was read from lines."""
    lines = [statement.line for statement in case.statements if isinstance(statement, Concludes)]
    return lines[rule.number - 1] if lines else None


def _without_text(case: Case) -> Iterator[LintWarning]:
    for number in case.framework.atoms:
        if not case.framework.texts.get(number):
            name = case.name(number)
            yield LintWarning("NoText", name, f"no line says what {name} stands for")


def _texts_twice(case: Case) -> Iterator[LintWarning]:
    first: dict[str, int] = {}
    for number, text in sorted(case.framework.texts.items()):
        other = first.setdefault(" ".join(text.casefold().split()), number)
        if other != number:
            name = case.name(number)
            yield LintWarning("TextTwice", name, f"{name} and {case.name(other)} have the same text")
