"""Why the members of a set stand and why others fall, as records and sentences."""
from __future__ import annotations

from dataclasses import dataclass
from typing import Iterable, Optional, Sequence

from burgaouez import Numbers
from certificate import View
from narration import Sentence, listed, name, names_of, sentence
from records import Fact

# More members than this are listed, without reasons.
MOST_MEMBERS = 150

# The sentence of each kind of standing.
STANDINGS = {
    "unattacked": "{a} stands: nothing attacks it",
    "answered": "{a} stands: {answers}",
    "held": "{a} is held though {unanswered}, which nothing in the set answers",
    "falls": "{list} {falls} to {c}",
    "itself": "{a} attacks itself",
    "open": "open {stays} {pairs}: nothing in the set answers that",
    "known": "known {are} {list}",
    "derived": "{x} follows from {body}",
    "unopposed": "{a} stands: nothing speaks against it",
    "underivable": "{a} stands: only {c} speaks against it, and no rule gives {c}",
    "shut": "{a} stands: only {c} speaks against it, which {why}",
    "all shut": "{a} stands: only {against} speak against it{each_why}",
    "attacked": "{a} falls: {c} speaks against it, and {holds}",
    "possible": "{a} stays open: {c} speaks against it, and the set doesn't shut {c} out",
    "lacking": "{x} is shut out: it {why}",
    "circle": "{list} {are} shut out, coming only from {each}{ways}",
}


@dataclass
class Standing:
    """Why something stands, falls or stays open beside a set: the kind is a key of STANDINGS; `about` is what it is
    said of, and `by` the members, or the statements out of reach, that it rests on."""

    kind: str
    about: Numbers
    by: Numbers
    facts: tuple[Fact, ...]
    members: Numbers
    number: int = 0


def standings(view: View, members: Numbers, told: Iterable[int] = (), opens: bool = False) -> list[Standing]:
    """Why each member that isn't told yet stands, what falls, and with `opens` what stays open."""
    if view.is_rules:
        return _of_assumptions(view, members, opens)
    return _of_attacks(view, members, set(told), opens)


def in_order(view: View, members: Numbers) -> list[int]:
    """Members of a set, each where it may be behind those that answer its attackers."""
    placed: dict[int, None] = {}
    left = list(members)
    while left:
        answered = {target for one in placed for target in view.targets[one]}
        ready = [a for a in left if all(b in answered for b in view.attackers[a])] or left[:1]
        placed.update(dict.fromkeys(ready))
        left = [a for a in left if a not in placed]
    return list(placed)


def common_part(view: View, sets: Sequence[Numbers]) -> Numbers:
    """The largest part of what all sets hold that answers what attacks it."""
    part = set(sets[0]).intersection(*map(set, sets))
    while True:
        attacked = {target for one in part for target in view.targets[one]}
        kept = {a for a in part if all(b in attacked for b in view.attackers[a])}
        if kept == part:
            return tuple(sorted(part))
        part = kept


# Attacks


def _of_attacks(view: View, members: Numbers, told: set[int], opens: bool) -> list[Standing]:
    order = in_order(view, members)
    out = [_stands(view, a, order, members) for a in order if a not in told]
    fallen: dict[int, list[int]] = {}
    gone = {target for one in told for target in view.targets[one]}
    for x in sorted({target for one in members for target in view.targets[one]} - gone):
        by = next(one for one in order if x in view.targets[one])
        fallen.setdefault(by, []).append(x)
    for by, those in fallen.items():
        out.append(Standing("falls", tuple(those), (by,), tuple(Fact("attacks", (by, x)) for x in those), members))
    return out + (_left_open(view, members) if opens else [])


def _stands(view: View, a: int, order: Sequence[int], members: Numbers) -> Standing:
    attackers = tuple(view.attackers[a])
    answered = {target for one in members for target in view.targets[one]}
    left = tuple(b for b in attackers if b not in answered)
    if left:
        return Standing("held", (a,), left, tuple(Fact("attacks", (b, a)) for b in left), members)
    answers = [(next(c for c in order if b in view.targets[c]), b) for b in attackers]
    facts = (Fact("attackers", (a, attackers)), *(Fact("attacks", pair) for pair in answers))
    by = tuple(dict.fromkeys(c for c, _ in answers))
    return Standing("answered" if attackers else "unattacked", (a,), by, facts, members)


def _left_open(view: View, members: Numbers) -> list[Standing]:
    """What has an attacker that the set doesn't attack, and isn't attacked by the set."""
    attacked = view.attacked(members)
    left = [a for a in view.members if a not in attacked and a not in set(members)]
    pairs = [(next(b for b in view.attackers[a] if b not in attacked), a) for a in left]
    if not pairs:
        return []
    facts = tuple(Fact("attacks", pair) for pair in pairs)
    return [Standing("open", tuple(left), tuple(b for b, _ in pairs), facts, members)]


# Assumptions and rules


def _rule(view: View, number: int) -> Fact:
    return Fact("rule", (number, *view.rules[number]))


def _rules(view: View, x: int) -> tuple[Fact, ...]:
    rules = tuple(view.rules_for[x])
    return (Fact("rules", (x, rules)), *(_rule(view, rule) for rule in rules))


def derivation(view: View, members: Iterable[int], goals: Optional[Iterable[int]] = None) -> list[Fact]:
    """The rules by which a set derives what it derives, or the goals alone, each behind those of its body."""
    have, by = set(members), {}
    growing = True
    while growing:
        left = {number: rule for number, rule in view.rules.items() if rule[0] not in have}
        ready = {head: number for number, (head, body) in left.items() if have.issuperset(body)}
        growing = bool(ready)
        for head, number in ready.items():
            by[head] = _rule(view, number)
        have.update(ready)
    wanted = set(by if goals is None else goals)
    for head, fact in reversed(by.items()):
        if head in wanted:
            wanted.update(fact.values[2])
    return [fact for head, fact in by.items() if head in wanted]


class _Shut:
    """Which statements the opponents of a set can't derive, and why."""

    def __init__(self, view: View, members: Numbers):
        self.view = view
        self.attacked = view.attacked(members)
        self.open = view.closure(a for a in view.assumed if a not in self.attacked)
        self.lacks: dict[int, dict[int, int]] = {}
        out = set(self.attacked)
        growing = True
        while growing:
            found = {x: self._lacking(x, out) for x in view.framework.atoms if x not in self.open and x not in out}
            found = {x: lacks for x, lacks in found.items() if None not in lacks.values()}
            growing = bool(found)
            self.lacks.update(found)
            out.update(found)
        self.circle = [x for x in view.framework.atoms if x not in self.open and x not in out]

    def _lacking(self, x: int, out: set[int]) -> dict[int, Optional[int]]:
        return {r: next((y for y in self.view.rules[r][1] if y in out), None) for r in self.view.rules_for[x]}

    def behind(self, x: int) -> list[int]:
        """The statements that have to be said to be out of reach before x is, each behind what it rests on."""
        said: dict[int, None] = {}

        def visit(y: int) -> None:
            if y in self.attacked or y in said:
                return
            if y in self.circle:
                said.update(dict.fromkeys(self.circle))
                return
            for lack in self.lacks[y].values():
                visit(lack)
            said[y] = None

        visit(x)
        said.pop(x, None) if x not in self.circle else None
        return list(said)

    def why(self, x: int) -> str:
        """Why a statement is out of reach, for its sentence."""
        if x in self.attacked:
            return "falls"
        if x in self.circle:
            return "can only come from itself, in a circle"
        ways = [(self.view.rules[r][1], lack) for r, lack in self.lacks[x].items()]
        if not ways:
            return "has no rule"
        lacks = list(dict.fromkeys(lack for _, lack in ways))
        if len(lacks) == 1:
            return f"needs {name(lacks[0])}, which is out"
        return f"needs {names_of(lacks, 'or')}, and {'both' if len(lacks) == 2 else 'all of them'} are out"


def _of_assumptions(view: View, members: Numbers, opens: bool) -> list[Standing]:
    rules = derivation(view, members)
    known = tuple(f for f in rules if not f.values[2])
    out = [Standing("known", tuple(f.values[1] for f in known), (), known, members)]
    out += [Standing("derived", (f.values[1],), f.values[2], (f,), members) for f in rules if f.values[2]]
    out = [one for one in out if one.about]
    shut, said = _Shut(view, members), set()
    for a in members:
        out += _why_assumed(view, shut, a, members, said)
    derived = view.closure(members)
    out += [_against(view, "attacked", a, derived, members) for a in sorted(shut.attacked)]
    if opens:
        left = [a for a in sorted(view.assumed) if a not in members and a not in shut.attacked]
        out += [_against(view, "possible", a, shut.open, members) for a in left]
    return out


def _against(view: View, kind: str, a: int, have: set[int], members: Numbers) -> Standing:
    """That a contrary of an assumption is among the statements that one has."""
    c = next(c for c in view.contraries[a] if c in have)
    return Standing(kind, (a,), (c,), (Fact("contrary", (a, c)),), members)


def _why_assumed(view: View, shut: _Shut, a: int, members: Numbers, said: set[int]) -> list[Standing]:
    contraries = view.contraries[a]
    out = []
    for x in (x for c in contraries for x in shut.behind(c)):
        if x in said:
            continue
        about = tuple(shut.circle) if x in shut.circle else (x,)
        said.update(about)
        kind = "circle" if x in shut.circle else "lacking"
        facts = tuple(fact for one in about for fact in _rules(view, one))
        out.append(Standing(kind, about, tuple(dict.fromkeys(_lacks_of(shut, about))), facts, members))
    given = [c for c in contraries if c not in shut.attacked]
    facts = (Fact("contraries", (a, contraries)), *(fact for c in given for fact in _rules(view, c)))
    by = tuple(dict.fromkeys((*contraries, *_lacks_of(shut, contraries))))
    return out + [Standing(_kind_of(view, shut, contraries), (a,), by, facts, members)]


def _kind_of(view: View, shut: _Shut, contraries: Numbers) -> str:
    """The kind of standing of an assumption with these contraries, none of which opponents can derive."""
    if len(contraries) != 1:
        return "all shut" if contraries else "unopposed"
    return "shut" if contraries[0] in shut.attacked or view.rules_for[contraries[0]] else "underivable"


def _lacks_of(shut: _Shut, about: Iterable[int]) -> list[int]:
    return [lack for x in about for lack in shut.lacks.get(x, {}).values()]


# Sentences


class StandingTeller:
    """Tells standings, each once: what an earlier set's sentence has said is cited."""

    def __init__(self, view: View):
        self.view = view
        self.said: dict[tuple, int] = {}

    def told(self, found: Sequence[Standing], number: int) -> list[Sentence]:
        """The sentences of standings, numbered on from `number`."""
        out: list[Sentence] = []
        shut = _Shut(self.view, found[0].members) if self.view.is_rules and found else None
        for group in self._groups(found):
            number += 1
            text, cites = self._text(group, shut)
            for standing in group:
                standing.number = number
                self.said.setdefault(_key(standing), number)
            out.append(Sentence(sentence(text), list(group), number, cites))
        return out

    def _groups(self, found: Sequence[Standing]) -> list[list[Standing]]:
        """What was said before, together; what nothing attacks; each of the others; what falls."""
        before = [one for one in found if _key(one) in self.said]
        new = [one for one in found if _key(one) not in self.said]
        alone = [one for one in new if one.kind == "unattacked"]
        fallen = [one for one in new if one.kind == "falls"]
        others = [[one] for one in new if one.kind not in ("unattacked", "falls")]
        return [group for group in [before, alone, *others, fallen] if group]

    def _text(self, group: Sequence[Standing], shut: Optional[_Shut]) -> tuple[str, list[int]]:
        if _key(group[0]) in self.said:
            return self._repeated(group)
        if group[0].kind == "unattacked" and len(group) > 1:
            return f"{names_of(one.about[0] for one in group)} stand: nothing attacks them", []
        texts = [STANDINGS[one.kind].format(**_fields(self.view, one, shut)) for one in group]
        return "; ".join(texts), []

    def _repeated(self, group: Sequence[Standing]) -> tuple[str, list[int]]:
        parts = []
        for words, kinds in REPEATED.items():
            those = sorted({n for one in group if one.kind in kinds for n in one.about})
            if those:
                s, are = ("s", "is") if len(those) == 1 else ("", "are")
                parts.append(words.format(list=names_of(those), s=s, are=are))
        return f"as said already, {listed(parts)}", sorted({self.said[_key(one)] for one in group})


# What is said again of kinds of standings.
REPEATED = {
    "{list} follow{s}": ("known", "derived"),
    "{list} {are} shut out": ("lacking", "circle"),
    "{list} stand{s}": ("unattacked", "answered", "unopposed", "underivable", "shut", "all shut"),
    "{list} {are} held": ("held",),
    "{list} fall{s}": ("falls", "attacked"),
    "{list} stay{s} open": ("open", "possible"),
}


def _key(standing: Standing) -> tuple:
    return standing.kind, standing.about, standing.by, standing.facts


def _fields(view: View, one: Standing, shut: Optional[_Shut]) -> dict[str, str]:
    first = one.about[0]
    fields = {"a": name(first), "x": name(first), "list": names_of(one.about)}
    fields["falls"], fields["are"] = ("falls", "is") if len(one.about) == 1 else ("fall", "are")
    if one.by:
        fields.update(c=name(one.by[0]), b=name(one.by[0]))
    if one.kind == "open":
        fields["stays"] = "stays" if len(one.about) == 1 else "stay"
        fields["pairs"] = listed([f"{name(a)} ({'it attacks itself' if a == b else name(b) + ' attacks it'})"
                                  for a, b in zip(one.about, one.by)])
    if one.kind == "answered":
        fields["answers"] = _answers(one)
    if one.kind == "held":
        fields["unanswered"] = f"{names_of(one.by)} {'attacks' if len(one.by) == 1 else 'attack'} it"
    if one.kind == "derived":
        fields["body"] = names_of(one.by)
    if one.kind == "attacked":
        fields["holds"] = "it is assumed" if one.by[0] in one.members else "that follows"
    if one.kind == "all shut":
        fields["against"] = names_of(view.contraries[first])
        fields["each_why"] = _each_why(shut, view.contraries[first])
    if one.kind in ("shut", "lacking"):
        fields["why"] = shut.why(one.by[0] if one.kind == "shut" else first)
    if one.kind == "circle":
        fields["each"] = "itself" if len(one.about) == 1 else "each other"
        lacks = names_of(one.by)
        fields["ways"] = f", or from {lacks}, which {'is' if len(one.by) == 1 else 'are'} out" if lacks else ""
    return fields


def _each_why(shut: _Shut, contraries: Numbers) -> str:
    """Why several contraries are out of reach, those that fall first."""
    fallen = [c for c in contraries if c in shut.attacked]
    if len(fallen) == len(contraries):
        return f", and {'both' if len(fallen) == 2 else 'all of them'} fall"
    parts = [f"{names_of(fallen)} {'falls' if len(fallen) == 1 else 'fall'}"] if fallen else []
    return "; ".join(["", *parts, *(f"{name(c)} {shut.why(c)}" for c in contraries if c not in fallen)])


def _answers(one: Standing) -> str:
    """Who answers which attackers."""
    answered: dict[int, list[int]] = {}
    for fact in one.facts:
        if fact.name == "attacks":
            answered.setdefault(fact.values[0], []).append(fact.values[1])
    parts = []
    for c, those in answered.items():
        what = "that" if len(those) == 1 else "both" if len(those) == 2 else "them"
        by = f"it answers {what} itself" if c == one.about[0] else f"{name(c)} answers {what}"
        parts.append(f"{names_of(those)} {'attacks' if len(those) == 1 else 'attack'} it, and {by}")
    return "; ".join(parts)
