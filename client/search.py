"""Searches a short proof of a claim and writes it as the steps of a certificate.

The search trusts nothing and is trusted by nobody: what it writes goes through `argue check` like any certificate. It
works on *links*: an axiom, a side clause, or a chain of axioms that speak of one argument or one rule, as one clause.
"""
from __future__ import annotations

from dataclasses import dataclass, field
from typing import Iterable, NamedTuple, Optional, Sequence, Union

from certificate import (
    OWN, REST, Axiom, Claim, Derived, Literal, Side, Step, View, clause_of, no, yes,
)

# A clause is looked at this often at most: some three seconds.
MOST_LOOKS = 3_000_000
UNSPOKEN = ("Miss", "Cf", "Ad", "Co", "St")


class Link(NamedTuple):
    """A clause without its facts, and the steps that it stands for."""

    clause: tuple[Literal, ...]
    steps: tuple[Union[Axiom, Side], ...]


@dataclass
class Scope:
    """A proof by contradiction: what is supposed, the literals that follow, each with its link or its own proof, and
    the clash, a link of which nothing is left, or a proof that needs nothing more."""

    supposed: tuple[Literal, ...]
    moves: list[tuple[Literal, Union[Link, Scope]]] = field(default_factory=list)
    clash: Optional[Link] = None
    used: tuple[Literal, ...] = ()

    @property
    def clause(self) -> tuple[Literal, ...]:
        """What the proof shows, without its facts."""
        return tuple(-literal for literal in self.used)


class SearchStopped(Exception):
    """The looks were spent, or everything is decided and nothing clashes."""


# Links


def _walk(numbers: Sequence[int]) -> Iterable[tuple[int, int]]:
    start = 1
    for number in numbers:
        yield start, number
        start = number + 1


def _end(numbers: Sequence[int]) -> int:
    return numbers[-1] + 1 if numbers else 1


def _link(view: View, *axioms: Axiom) -> Optional[Link]:
    """A link of one axiom, or None where a fact makes it true."""
    literals = [literal for axiom in axioms for literal in clause_of(axiom)]
    open_ones = []
    for literal in literals:
        value = view.fact(literal.atom)
        if value == literal.positive:
            return None
        if value is None and literal not in open_ones:
            open_ones.append(literal)
    return Link(tuple(open_ones), axioms)


def attack_links(view: View, ranges: bool) -> list[Link]:
    """The links of a framework of attacks; with `ranges` those on verdicts too."""
    axioms = [Axiom("A14", (k,)) for k in (1, 2, 3)]
    axioms += [Axiom("A7", (a,)) for a in view.members] + [Axiom("A10", (a,)) for a in view.members]
    if ranges:
        axioms += [Axiom(name, (a,)) for name in ("A11", "A12", "A13") for a in view.members]
    for a, attackers in view.attackers.items():
        axioms += [Axiom(name, (b, a)) for name in ("A2", "A3", "A4") for b in attackers]
    links = [_link(view, axiom) for axiom in axioms]
    for a, attackers in view.attackers.items():
        links.append(_chain(("A5", "A6"), (a,), attackers, [no("Tail", a, 1)], [yes("Member", b) for b in attackers]))
        unanswered = [no("Tail", b, 1) for b in attackers]
        links.append(_chain(("A8", "A9"), (a,), attackers, [no("Unmet", a, 1)], unanswered))
    return [link for link in links if link is not None]


def _chain(names, numbers, walked, first, others) -> Link:
    axioms = [Axiom(names[0], (*numbers, i, j)) for i, j in _walk(walked)]
    return Link((*first, *others), (*axioms, Axiom(names[1], (*numbers, _end(walked)))))


def rule_links(view: View, loops: Iterable[Axiom]) -> list[Link]:
    """The links of a framework of assumptions and rules, with the loop clauses that a certificate has."""
    links = [_link(view, axiom) for axiom in (*(Axiom("B16", (k,)) for k in (1, 2, 3)), *loops)]
    for a in view.members:
        links += _assumption_links(view, a)
    axioms = [Axiom("B1", (x,)) for x in view.framework.atoms if x not in view.assumed]
    for r, (head, body) in view.rules.items():
        for k in (OWN, REST):
            axioms += [Axiom("B5", (k, r, head)), *(Axiom("B6", (k, r, x)) for x in body)]
    links += [_link(view, axiom) for axiom in axioms]
    for k in (OWN, REST):
        for r, (_, body) in view.rules.items():
            links.append(_chain(("B7", "B8"), (k, r), body, [no("Miss", k, r, 1)], [no("Der", k, x) for x in body]))
        links += [_giving(view, k, x) for x in view.framework.atoms if k == OWN or x not in view.assumed]
    return [link for link in links if link is not None]


def _assumption_links(view: View, a: int) -> list[Optional[Link]]:
    """The links of an assumption and its contraries."""
    contraries = view.contraries[a]
    links = [_link(view, axiom) for axiom in (Axiom("B2", (a,)), *(Axiom("B9", (3, a, c)) for c in contraries))]
    links.append(_hitting(view, "B3", OWN, a))
    links += [_link(view, Axiom(name, (a, c))) for name in ("B12", "B13") for c in contraries]
    return [*links, _hitting(view, "B14", REST, a), _hitting(view, "B15", OWN, a)]


def _hitting(view: View, name: str, k: int, a: int) -> Link:
    """An axiom that speaks of all contraries of an assumption: some of them is in a closure, or its other literals
    say what is so."""
    axiom = Axiom(name, (a,))
    others = [literal for literal in clause_of(axiom) if literal.atom[0] not in ("Asm", "Hit")]
    contraries = view.contraries[a]
    chain = _chain(("B18", "B19"), (k, a), contraries, others, [yes("Der", k, c) for c in contraries])
    return Link(tuple(dict.fromkeys(chain.clause)), (axiom, *chain.steps))


def _giving(view: View, k: int, x: int) -> Link:
    """Who derives a statement assumes it, or has the whole body of a rule for it."""
    rules = view.rules_for[x]
    member = [yes("Member", x)] if k == OWN else []
    chain = _chain(("B10", "B11"), (k, x), rules, [no("Der", k, x), *member], [no("Miss", k, r, 1) for r in rules])
    return Link(chain.clause, (Axiom("B9", (k, x)), *chain.steps))


# The search


class Search:
    """A search over links. `trail` has the true literals with the link that gave each."""

    def __init__(self, links: Sequence[Link], most_looks: int = MOST_LOOKS):
        self.links = list(links)
        self.looks = most_looks
        self.users: dict[Literal, list[int]] = {}
        self.trail: dict[Literal, object] = {}
        for index, link in enumerate(self.links):
            for literal in link.clause:
                self.users.setdefault(literal, []).append(index)
        self.units = [index for index, link in enumerate(self.links) if len(link.clause) <= 1]
        self.members = sorted({lit.atom for link in self.links for lit in link.clause if lit.atom[0] == "Member"})

    def refute(self, goals: Sequence[Literal], together: bool = False) -> Scope:
        """A short proof that no position has all goals. What follows from the modes alone is taken first, where
        `together` doesn't say that the other goals are as good a beginning. Raises SearchStopped."""
        if together:
            self.ground = set()
            return self._scope(tuple(goals), set(), self._propagate(self._put(goals), self.units))
        modes = [goal for goal in goals if len(goal.atom) == 1]
        clashes = self._propagate(self._put(modes), self.units)
        self.ground = set(self.trail)
        denied = next((goal for goal in goals if -goal in self.trail), None)
        if not clashes and denied is not None:
            clashes = [self.trail.pop(-denied)]
        added = self._put(goals)
        return self._scope(tuple(goals), set(), clashes or self._propagate(added, ()))

    def _put(self, literals: Iterable[Literal]) -> list[Literal]:
        new = [literal for literal in literals if literal not in self.trail and -literal not in self.trail]
        for literal in new:
            self.trail[literal] = None
        return new

    def _propagate(self, layer: list[Literal], first: Iterable[int]) -> list[Link]:
        """Goes on in layers; the clashes of the first layer that has any."""
        waiting = list(first)
        while layer or waiting:
            waiting += [index for literal in layer for index in self.users.get(-literal, ())]
            clashes, layer = self._look(waiting)
            if clashes:
                return clashes
            waiting = []
        return []

    def _look(self, indices: Iterable[int]) -> tuple[list[Link], list[Literal]]:
        """The clashes among links, and what the unit ones of them newly give."""
        trail, clashes, given = self.trail, [], {}
        for index in indices:
            self.looks -= 1
            link, left = self.links[index], None
            for literal in link.clause:
                if literal in trail:
                    break
                if -literal not in trail:
                    if left is not None:
                        break
                    left = literal
            else:
                if left is None:
                    clashes.append(link)
                else:
                    given.setdefault(left, link)
        if self.looks < 0:
            raise SearchStopped("looks")
        return clashes, self._take(given)

    def _take(self, given: dict[Literal, Link]) -> list[Literal]:
        taken = []
        for literal, link in given.items():
            if -literal not in self.trail:
                self.trail[literal] = link
                taken.append(literal)
        return taken

    def _cost(self, clash: Link, outer: set[Literal]) -> int:
        """How much there is to say between the outer literals and a clash."""
        seen, waiting, cost = set(), [-literal for literal in clash.clause], 0
        while waiting:
            literal = waiting.pop()
            if literal in seen or literal in outer or literal in self.ground:
                continue
            seen.add(literal)
            reason = self.trail.get(literal)
            if reason is not None:
                cost += 0 if literal.atom[0] in UNSPOKEN else (2 if literal.positive else 3)
                waiting += [-other for other in reason.clause if other != literal]
        return cost

    def _scope(self, supposed: tuple[Literal, ...], outer: set[Literal], clashes: list[Link]) -> Scope:
        """The proof under what the trail has beyond the outer literals; goes on until a clash is there."""
        while not clashes:
            literal, proof = self._shortest_case(set(self.trail)) or self._split(set(self.trail))
            if literal in proof.used:
                self.trail[-literal] = _Shown(proof)
                clashes = self._propagate([-literal], ())
            else:
                clashes = [_Shown(proof)]
        best = min(clashes, key=lambda clash: self._cost(clash, outer))
        return self._cut(Scope(supposed), outer, best)

    def _open(self) -> list[Literal]:
        open_ones = [atom for atom in self.members if yes(*atom) not in self.trail and no(*atom) not in self.trail]
        return [Literal(sign, atom) for atom in open_ones for sign in (True, False)]

    def _tried(self, literal: Literal) -> tuple[list[Link], list[Literal]]:
        """What supposing a literal leads to; the trail is as before."""
        before = len(self.trail)
        self.trail[literal] = None
        clashes = self._propagate([literal], ())
        return clashes, list(self.trail)[before:]

    def _undo(self, added: Iterable[Literal]) -> None:
        for literal in added:
            del self.trail[literal]

    def _shortest_case(self, outer: set[Literal]) -> Optional[tuple[Literal, Scope]]:
        """The open literal whose supposition clashes soonest, with that proof; None where none clashes by itself."""
        best = None
        for literal in self._open():
            clashes, added = self._tried(literal)
            if clashes:
                cost = min(self._cost(clash, outer) for clash in clashes) + (0 if literal.positive else 2)
                if best is None or cost < best[0]:
                    best = cost, literal, self._scope((literal,), outer, clashes)
            self._undo(added)
        return best and best[1:]

    def _split(self, outer: set[Literal]) -> tuple[Literal, Scope]:
        """The proof against the open literal that leads furthest."""
        reach = {}
        for literal in self._open():
            _, added = self._tried(literal)
            reach[literal] = len(added)
            self._undo(added)
        if not reach:
            raise SearchStopped("nothing is open")
        literal = max(reach, key=reach.get)
        before = len(self.trail)
        self._tried(literal)
        proof = self._scope((literal,), outer, [])
        self._undo(list(self.trail)[before:])
        return literal, proof

    def _cut(self, scope: Scope, outer: set[Literal], clash: Link) -> Scope:
        """Keeps what the clash reaches, in the order in which it is best said."""
        reached, waiting, reasons = set(), [-literal for literal in clash.clause], []
        while waiting:
            literal = waiting.pop()
            reason = self.trail.get(literal)
            if literal in reached or literal in outer or reason is None:
                continue
            reached.add(literal)
            reasons.append((literal, reason))
            waiting += [-other for other in reason.clause if other != literal]
        order = {literal: number for number, literal in enumerate(self.trail)}
        reasons = [reason for _, reason in sorted(reasons, key=lambda one: order[one[0]])]
        known = {literal for literal in self.trail if literal in outer or self.trail[literal] is None}
        return pruned(scope, _replayed([*reasons, clash], known))


class _Shown(NamedTuple):
    """A proof in the place of a link."""

    proof: Scope

    @property
    def clause(self):
        return self.proof.clause


def _replayed(reasons: Sequence, known: set[Literal]) -> tuple[list, object]:
    """The moves from known literals to a clash along these links, positive ones first."""
    true, moves, left = set(known), [], list(reasons)
    while True:
        gives = []
        for reason in left:
            open_ones = [literal for literal in reason.clause if -literal not in true]
            if not open_ones:
                return moves, reason
            if len(open_ones) == 1 and open_ones[0] not in true:
                gives.append((open_ones[0], reason))
        literal, reason = next((one for one in gives if one[0].positive), gives[0])
        true.add(literal)
        moves.append((literal, reason))
        left.remove(reason)


def pruned(scope: Scope, played: tuple[list, object]) -> Scope:
    """A scope with those of the moves that the clash reaches, and what it uses from outside of them."""
    moves, clash = played
    wanted, kept = {-literal for literal in clash.clause}, []
    for literal, reason in reversed(moves):
        if literal in wanted:
            wanted |= {-other for other in reason.clause if other != literal}
            kept.insert(0, (literal, reason.proof if isinstance(reason, _Shown) else reason))
    scope.moves, scope.clash = kept, clash
    if isinstance(clash, _Shown):
        scope.moves, scope.clash = kept + clash.proof.moves, clash.proof.clash
    scope.used = tuple(sorted(wanted - {literal for literal, _ in kept}))
    return scope


# Writing


class _Writer:
    """The steps of one refutation, each axiom and side once."""

    def __init__(self, view: View, sides: Sequence[Sequence[Literal]]):
        self.view = view
        self.sides = sides
        self.steps: list[Step] = []
        self.numbers: dict[Step, int] = {}

    def number_of(self, step: Step) -> int:
        """The number of a step, which is written where it isn't yet."""
        if step not in self.numbers:
            self.steps.append(step)
            self.numbers[step] = len(self.steps)
        return self.numbers[step]

    def clause(self, step: Step) -> Sequence[Literal]:
        """The clause of a step."""
        match step:
            case Axiom():
                return clause_of(step)
            case Side():
                return [no("Ask", step.number), *self.sides[step.number - 1]]
        return step.clause

    def derived(self, scope: Scope) -> Derived:
        """Writes a proof, the proofs within it first, as a derived step."""
        parts = [self._parts(reason) for _, reason in scope.moves] + [scope.clash.steps]
        literals = {literal for steps in parts for step in steps for literal in self.clause(step)}
        closed = {literal for literal in literals if self._is_closed(literal)}
        clause = tuple([-literal for literal in scope.used] + sorted(closed))
        true = {-literal for literal in clause}
        hints: list[int] = []
        for steps, goal in zip(parts, [literal for literal, _ in scope.moves] + [None]):
            self._walk_to(goal, steps, true, hints)
        step = Derived(clause, tuple(hints))
        self.number_of(step)
        return step

    def _is_closed(self, literal: Literal) -> bool:
        return literal.atom[0] == "Ask" or self.view.fact(literal.atom) is not None

    def _parts(self, reason: Union[Link, Scope]) -> tuple[Step, ...]:
        return (self.derived(reason),) if isinstance(reason, Scope) else reason.steps

    def _walk_to(self, goal: Optional[Literal], steps: Sequence[Step], true: set[Literal], hints: list[int]) -> None:
        """Appends these steps as hints, each where one literal of it is open, until the goal, or a clash, is there."""
        left = list(steps)
        while left and (goal is None or goal not in true):
            for step in left:
                open_ones = list({literal for literal in self.clause(step) if -literal not in true})
                if len(open_ones) <= 1 and not any(literal in true for literal in open_ones):
                    break
            else:
                raise SearchStopped("a link's steps don't lead on")
            left.remove(step)
            hints.append(self.number_of(step))
            if not open_ones:
                return
            true.add(open_ones[0])


def links_for(view: View, claim: Claim, loops: Iterable[Axiom]) -> list[Link]:
    """All links that a proof of the claim may use."""
    spoken = [literal for side in claim.sides for literal in side.literals] + list(claim.goals)
    ranges = any(literal.atom[0] == "Range" for literal in spoken)
    links = rule_links(view, loops) if view.is_rules else attack_links(view, ranges)
    return links + [Link(side.literals, (Side(n),)) for n, side in enumerate(claim.sides, 1)]


def shorter_steps(view: View, claim: Claim, steps: Sequence[Step], most_looks: int = MOST_LOOKS) -> list[Step]:
    """The steps of a short proof of the claim, of which a proof is given. Raises SearchStopped."""
    loops = [step for step in steps if isinstance(step, Axiom) and step.name == "B17"]
    scope = Search(links_for(view, claim, loops), most_looks).refute(claim.goals, claim.about == "largest")
    writer = _Writer(view, [side.literals for side in claim.sides])
    writer.derived(scope)
    return writer.steps
