"""Answers every task by its definition, over all subsets: slow, short, and only for the tests.

It knows nothing of how `argue` works, and reads no text: it takes a `Framework`. Sets are frozensets of arguments or
assumptions. With rules, a set attacks an assumption where one of the assumption's contraries follows from the set."""
from __future__ import annotations

from itertools import chain, combinations
from random import Random
from typing import Callable, Optional

from burgaouez import Framework, Kind

Members = frozenset[int]


def subsets(members) -> list[Members]:
    """All subsets, the smaller ones first."""
    listed = sorted(members)
    return [frozenset(one) for one in chain.from_iterable(combinations(listed, n) for n in range(len(listed) + 1))]


def following(framework: Framework, given: Members) -> Members:
    """What follows from a set: rules are applied until none gives anything new."""
    derived = set(given)
    while True:
        more = {rule.head for rule in framework.rules if set(rule.body) <= derived} - derived
        if not more:
            return frozenset(derived)
        derived |= more


class Definitions:
    """The extensions of one framework. The table of what attacks what is made once."""

    def __init__(self, framework: Framework):
        self.framework = framework
        self.everything = frozenset(framework.members)
        self.all = subsets(self.everything)
        self.beaten = {one: self._beaten_by(one) for one in self.all}
        self.attackers = {
            member: [one for one in self.all if member in self.beaten[one]] for member in self.everything
        }

    def _beaten_by(self, one: Members) -> Members:
        """The members that a set attacks."""
        if self.framework.kind is Kind.ATTACKS:
            return frozenset(attack.target for attack in self.framework.attacks if attack.attacker in one)
        derived = following(self.framework, one)
        return frozenset(member for member, row in self.framework.contraries.items() if not derived.isdisjoint(row))

    def defends(self, one: Members, member: int) -> bool:
        """The set attacks a member of each set that attacks this one."""
        return all(self.beaten[one] & attacker for attacker in self.attackers[member])

    def admissible(self) -> list[Members]:
        return [
            one
            for one in self.all
            if self.beaten[one].isdisjoint(one) and all(self.defends(one, member) for member in one)
        ]

    def complete(self) -> list[Members]:
        return [
            one
            for one in self.admissible()
            if all(member in one for member in self.everything if self.defends(one, member))
        ]

    def grounded(self) -> list[Members]:
        complete = self.complete()
        return [one for one in complete if all(one <= other for other in complete)]

    def preferred(self) -> list[Members]:
        admissible = self.admissible()
        return [one for one in admissible if not any(one < other for other in admissible)]

    def stable(self) -> list[Members]:
        return [one for one in self.all if self.beaten[one] == self.everything - one]

    def conflict_free(self) -> list[Members]:
        return [one for one in self.all if not one & self.beaten[one]]

    def _widest(self, sets: list[Members]) -> list[Members]:
        ranges = {one: one | self.beaten[one] for one in sets}
        return [one for one, reach in ranges.items() if not any(reach < other for other in ranges.values())]

    def semi_stable(self) -> list[Members]:
        return self._widest(self.admissible())

    def stage(self) -> list[Members]:
        return self._widest(self.conflict_free())

    def ideal(self) -> list[Members]:
        preferred = self.preferred()
        candidates = [one for one in self.admissible() if all(one <= other for other in preferred)]
        return [one for one in candidates if all(other <= one for other in candidates)]

    def extensions(self, semantics: str) -> list[Members]:
        """The extensions by a semantics, named as in a task: CO, GR, PR, ST, SST, ID, STG."""
        table: dict[str, Callable[[], list[Members]]] = {
            "CO": self.complete,
            "GR": self.grounded,
            "PR": self.preferred,
            "ST": self.stable,
            "SST": self.semi_stable,
            "ID": self.ideal,
            "STG": self.stage,
        }
        return table[semantics]()

    def accepts(self, one: Members, query: int) -> bool:
        """The set holds the argument, or the statement follows from it."""
        return query in following(self.framework, one)

    def is_answered(self, task: str, query: Optional[int]) -> bool:
        """The verdict of DC or DS."""
        problem, semantics = task.split("-")
        verdicts = [self.accepts(one, query) for one in self.extensions(semantics)]
        return any(verdicts) if problem == "DC" else all(verdicts)


def drawn_attacks(choose: Random, most: int = 6) -> Framework:
    """A framework of attacks on up to `most` arguments, some of them attacking themselves."""
    size = choose.randint(0, most)
    pairs = [(choose.randint(1, size), choose.randint(1, size)) for _ in range(choose.randint(0, 2 * size))]
    return Framework.of_attacks(pairs, size)


def drawn_rules(choose: Random, most: int = 4) -> Framework:
    """A framework of up to `most` assumptions and as many other statements and three more, with some rules. An
    assumption has up to three contraries, which may be assumptions too."""
    assumed, others = choose.randint(0, most), choose.randint(1, most + 3)
    size = assumed + others
    contraries = {
        number: [choose.randint(1, size) for _ in range(choose.choice((0, 1, 1, 1, 2, 2, 3)))]
        for number in range(1, assumed + 1)
    }
    rules = [
        (choose.randint(assumed + 1, size), [choose.randint(1, size) for _ in range(choose.choice((0, 1, 1, 2, 3)))])
        for _ in range(choose.randint(0, 2 * others))
    ]
    return Framework.of_rules(range(1, assumed + 1), contraries, rules, size)
