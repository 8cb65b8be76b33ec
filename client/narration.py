"""Makes sentences from records: merges what belongs together, numbers paragraphs, cites, and fills the words in.

A sentence's text has marks in the place of names, so that a page can tie each name to its argument: `plain` fills
them in. """
from __future__ import annotations

import re
from dataclasses import dataclass, field
from typing import Callable, Iterable, Iterator, Optional, Sequence, Union

from certificate import MODES, OWN, Axiom, Claim, Literal, View, loop_of
from records import Case, Fact, Lemma, Record, Refutation, walk
from words import LITERALS, MERGED, POSITIONS, SENTENCES, UNLESS

NAME_MARK, SET_MARK, CAPITAL_MARK, END_MARK = "\ue000", "\ue001", "\ue002", "\ue003"
MARKED = re.compile(f"([{NAME_MARK}{SET_MARK}{CAPITAL_MARK}])([0-9]+){END_MARK}")
Item = Union[Record, Case]


@dataclass
class Sentence:
    """One paragraph: its text with marks, the records that it tells, the paragraphs that it cites, and those of its
    case."""

    text: str
    records: list[Record]
    number: int = 0
    cites: list[int] = field(default_factory=list)
    items: list[Sentence] = field(default_factory=list)
    case: Optional[Case] = None

    def all(self) -> Iterator[Sentence]:
        """The sentence and those within it."""
        yield self
        for item in self.items:
            yield from item.all()

    @property
    def arguments(self) -> list[int]:
        """The numbers that the text names, rising."""
        return sorted({int(mark[2]) for mark in MARKED.finditer(self.text) if mark[1] != SET_MARK})

    @property
    def attacks(self) -> list[tuple[int, int]]:
        """The pairs of the framework's picture that the sentence speaks of: attacks, or a rule's body and head, or
        contraries and their assumption."""
        pairs = []
        for fact in (fact for record in self.records for fact in record.facts):
            match fact:
                case Fact("attacks", pair):
                    pairs.append(pair)
                case Fact("attackers" | "contraries", (about, those)):
                    pairs += [(one, about) for one in those]
                case Fact("contrary", (about, against)):
                    pairs.append((against, about))
                case Fact("rule", (_, head, body)):
                    pairs += [(one, head) for one in body]
        return sorted(set(pairs))


def name(number: int) -> str:
    """A mark that stands for a number's name."""
    return f"{NAME_MARK}{number}{END_MARK}"


def set_name(number: int) -> str:
    """A mark that stands for a set."""
    return f"{SET_MARK}{number}{END_MARK}"


def plain(text: str, names: Callable[[int], str], sets: Callable[[int], str] = "set {}".format) -> str:
    """A text with names in the place of its marks."""
    def fill(mark: re.Match) -> str:
        if mark[1] == SET_MARK:
            return sets(int(mark[2]))
        said = names(int(mark[2]))
        return said[:1].upper() + said[1:] if mark[1] == CAPITAL_MARK else said

    filled = MARKED.sub(fill, text)
    return filled


def sentence(text: str) -> str:
    """A text as a sentence, with a capital and a full stop."""
    if text.startswith(NAME_MARK):
        text = CAPITAL_MARK + text[1:]
    text = text[:1].upper() + text[1:]
    return text if text.endswith((".", ":", "?")) else text + "."


def listed(parts: Sequence[str], last: str = "and") -> str:
    """Parts with commas between them and a word before the last."""
    return parts[0] if len(parts) == 1 else f"{', '.join(parts[:-1])} {last} {parts[-1]}" if parts else ""


def names_of(numbers: Iterable[int], last: str = "and") -> str:
    """Marks for numbers, listed."""
    return listed([name(number) for number in numbers], last)


# The words of one record


def literal_words(view: View, literal: Literal) -> str:
    """What a literal says, of "it"."""
    kind, *numbers = literal.atom
    fields = {"a": name(numbers[-1]) if numbers else ""}
    if kind in ("Tail", "Unmet"):
        fields = {"a": name(numbers[0]), "i": str(numbers[1])}
        kind += " from" if numbers[1] > 1 else ""
    elif kind == "Member" and view.is_rules:
        kind = "Assumed"
    elif kind == "Der":
        own, assumed = numbers[0] == OWN, numbers[1] in view.assumed
        kind = ("Assumed" if assumed else "Der own") if own else ("Asm rest" if assumed else "Der rest")
    elif kind in ("Miss", "Sup", "Hit"):
        fields = {"a": name(numbers[1]), "rule": f"rule {numbers[1]}", "i": str(numbers[2])}
        kind += "" if numbers[0] == OWN else " rest"
        kind += " from" if numbers[2] > 1 and not kind.startswith("Sup") else ""
    return LITERALS[kind][0 if literal.positive else 1].format(**fields)


def _how_many(those: Sequence[int]) -> str:
    return {0: "none", 1: "one"}.get(len(those), "more")


class Wording:
    """Chooses and fills the sentence of a record."""

    def __init__(self, view: View, claim: Optional[Claim] = None, lemmas: Sequence[Lemma] = ()):
        self.view = view
        self.claim = claim
        self.lemma_names = {lemma.step: number for number, lemma in enumerate(lemmas, 1)}

    def key(self, record: Record) -> tuple[str, dict[str, str]]:
        """The key in SENTENCES, and its fields."""
        if any(fact.name.startswith("some ") for fact in record.facts):
            return self._other(record)
        found = getattr(self, "_" + record.group.replace(" ", "_").lower(), self._other)(record)
        return found if found is not None and found[0] in SENTENCES else self._other(record)

    def of(self, record: Record) -> str:
        """The words of a record, without capital and stop."""
        key, fields = self.key(record)
        return SENTENCES[key].format(**fields)

    def _other(self, record: Record) -> tuple[str, dict[str, str]]:
        said = [literal_words(self.view, premise) for premise in record.premises if premise.atom[0] not in MODES]
        facts = [self.fact_words(fact) for fact in record.facts]
        fields = {"premises": listed(facts + said) or "it is so"}
        if record.conclusion is None:
            return "other clash", fields
        return "other", {**fields, "words": literal_words(self.view, record.conclusion)}

    def fact_words(self, fact: Fact) -> str:
        """What a fact says, where no sentence of its own has it."""
        match fact:
            case Fact("attacks", (b, a)):
                return f"{name(b)} attacks {name(a)}"
            case Fact("attackers", (a, those)):
                return f"only {names_of(those)} attacks {name(a)}" if those else f"nothing attacks {name(a)}"
            case Fact("some attackers", (a, spans, those)):
                return f"of {self._between(spans)}, {names_of(those) or 'nothing'} attacks {name(a)}"
            case Fact("contrary", (a, c)):
                return f"{name(c)} speaks against {name(a)}"
            case Fact("contraries", (a, those)):
                who = f"only {names_of(those)}" if those else "nothing"
                return f"{who} {'speak' if len(those) > 1 else 'speaks'} against {name(a)}"
            case Fact("some contraries", (a, spans, those)):
                return f"of {self._between(spans)}, {names_of(those) or 'nothing'} speaks against {name(a)}"
            case Fact("rule", (_, head, body)):
                return f"{name(head)} follows from {names_of(body)}" if body else f"{name(head)} is known"
            case Fact("rules", (x, rules)):
                return f"{name(x)} has {len(rules)} rules" if rules else f"no rule gives {name(x)}"
        x, _, rules = fact.values
        return f"{name(x)} has {len(rules)} of these rules"

    def _between(self, spans: Iterable[tuple[int, int]]) -> str:
        """Which numbers a part of a walk goes along."""
        return listed([f"{start} to {min(end - 1, self.view.framework.size)}" for start, end in spans])

    # Attacks

    def _a2(self, record):
        b, a = record.facts[0].values
        fields = {"a": name(a), "b": name(b)}
        itself = " self" if a == b else ""
        if record.conclusion is None:
            return "A2 clash" + itself, fields
        x = record.conclusion.atom[1]
        fields.update(x=name(x), y=name(b if x == a else a))
        return "A2 -Member" + (itself or (" of" if x == a else " on")), fields

    def _a3(self, record):
        b, a = record.facts[0].values
        return f"A3 {record.given}" + (" self" if a == b else ""), {"a": name(a), "b": name(b)}

    def _a4(self, record):
        b, a = record.facts[0].values
        return f"A4 {record.given}", {"a": name(a), "b": name(b)}

    def _a5(self, record):
        a, those = record.facts[0].values
        fields = {"a": name(a), "list": names_of(those)}
        if record.conclusion is not None:
            fields["j"] = name(record.conclusion.atom[1])
        return f"A5 {record.given} {_how_many(those)}", fields

    def _a8(self, record):
        key, fields = self._a5(record)
        return key.replace("A5", "A8"), fields

    def _about(self, record):
        axiom = next(step for step in record.steps if isinstance(step, Axiom) and step.name == record.group)
        return f"{record.group} {record.given}", {"a": name(axiom.numbers[0])}

    _a7 = _a10 = _a11 = _a12 = _a13 = _about

    # Assumptions and rules

    def get(self, letter: str, x: int) -> dict[str, str]:
        """The fields that say what becomes of a statement."""
        assumed = x in self.view.assumed
        return {
            letter: name(x),
            f"has_{letter}": ("assumes " if assumed else "derives ") + name(x),
            f"have_{letter}": ("assume " if assumed else "derive ") + name(x),
            f"opens_{letter}": f"doesn't attack {name(x)}" if assumed else f"leaves {name(x)} open",
            f"shuts_{letter}": f"attacks {name(x)}" if assumed else f"shuts {name(x)} out",
        }

    def _against(self, record):
        """The words of an axiom on one contrary."""
        a, c = next(fact.values for fact in record.facts if fact.name == "contrary")
        given = record.given
        if record.group == "B9 3" and record.conclusion is not None:
            given += " own" if record.conclusion.atom[1] == OWN else " rest"
        if record.group == "B13" and given == "-Der":
            given += " asm" if c in self.view.assumed else " rest"
        return f"{record.group} {given}", {"a": name(a), **self.get("c", c)}

    _b9_3 = _b12 = _b13 = _against

    def _all_against(self, record):
        """The words of an axiom on all contraries of an assumption."""
        told = [fact.values for fact in record.facts if fact.name == "contraries"]
        if not told:
            return self._other(record)
        a, those = told[0]
        fields, given = {"a": name(a), "list": names_of(those)}, record.given
        if record.group == "B3" and record.conclusion is not None:
            given += " own" if record.conclusion.atom[1] == OWN else " rest"
        if those:
            one = record.conclusion.atom[2] if given in ("Der", "Der own") else those[0]
            fields.update(self.get("c", one))
        return f"{record.group} {given} {_how_many(those)}", fields

    _b3 = _b14 = _b15 = _all_against

    def _closure(self, record) -> str:
        """Whose derivations a chain of rules is about: `own`, or `rest`."""
        chains = ("B5", "B7", "B8", "B9", "B10", "B17")
        axiom = next(step for step in record.steps if isinstance(step, Axiom) and step.name in chains)
        return "own" if axiom.numbers[0] == OWN else "rest"

    def _b5(self, record):
        _, head, body = next(fact.values for fact in record.facts if fact.name == "rule")
        fields = {**self.get("h", head), "body": names_of(body)}
        key = f"B5 {record.given} {self._closure(record)}"
        if record.given == "-Der":
            return f"{key} {_how_many(body)}", {**fields, **self.get("x", record.conclusion.atom[2])}
        return key + ("" if body else " known"), fields

    def _b9(self, record):
        x, rules = next(fact.values for fact in record.facts if fact.name == "rules")
        fields = {"x": name(x), "ways": self._ways(record, rules)}
        own, many = self._closure(record), _how_many(rules)
        if rules:
            body = self.view.rules[rules[0]][1]
            fields.update(body=names_of(body), lacks=names_of(self._lacks(record, body)))
        if record.given == "Der":
            taken = [step for step in record.steps if isinstance(step, Axiom) and step.name == "B6"][-1].numbers[1]
            body = self.view.rules[taken][1]
            fields.update(body=names_of(body), **self.get("y", record.conclusion.atom[2]))
            return f"B9 Der {own} {many}", fields
        if record.given == "-Der":
            return f"B9 -Der {own} {many}", fields
        if record.given == "Member" or not rules:
            return f"B9 {record.given}" + ("" if record.given == "Member" else " none"), fields
        return f"B9 {record.given} {own} {many}", fields

    def _lacks(self, record, body) -> list[int]:
        """What the premises say is missing of a body."""
        lacking = [premise.atom for premise in record.premises if not premise.positive]
        gone = {atom[-1] for atom in lacking if atom[0] in ("Der", "Member")}
        return [x for x in body if x in gone][:1]

    def _ways(self, record, rules) -> str:
        """For each rule what it lacks, and what it lacks that of."""
        ways = []
        for rule in rules:
            body = self.view.rules[rule][1]
            lacks = self._lacks(record, body)
            if lacks and len(body) == 1:
                ways.append(f"no {name(lacks[0])}")
            elif lacks:
                ways.append(f"no {name(lacks[0])} for {names_of(body)}")
        return "; ".join(ways)

    def _b17(self, record):
        axiom = next(step for step in record.steps if isinstance(step, Axiom) and step.name == "B17")
        loop = loop_of(axiom.numbers)
        outer = [rule for _, pairs in loop.rows for rule, y in pairs if y == 0]
        ways = self._ways(record, outer)
        fields = {"list": names_of(member for member, _ in loop.rows), "ways": f" ({ways})" if ways else ""}
        fields.update(x=name(loop.statement), each="itself" if len(loop.rows) == 1 else "each other")
        if record.given == "Der":
            taken = [step for step in record.steps if isinstance(step, Axiom) and step.name == "B6"][-1].numbers[1]
            fields["body"] = names_of(self.view.rules[taken][1])
        if record.conclusion is not None:
            fields["y"] = name(record.conclusion.atom[-1])
        return f"B17 {record.given}", fields

    # Sides, lemmas

    def _side(self, record):
        side = self.claim.sides[record.side - 1]
        fields = {"set": listed([set_name(n) for n in side.sets], "or")}
        if record.conclusion is None:
            return f"side {side.kind} clash" + ("" if side.literals else " all"), fields
        if side.kind == "unattacked" and self.view.is_rules:
            return "side unattacked derives", {**fields, **self.get("c", record.conclusion.atom[-1])}
        fields.update(x=name(record.conclusion.atom[1]), holds="assumes" if self.view.is_rules else "holds")
        fields["hold"] = fields["holds"][:-1]
        if side.kind == "is" and not record.conclusion.positive:
            return "side is not", fields
        alone = " only" if side.kind == "within" and len(side.literals) == 1 else ""
        return f"side {side.kind}{alone}", fields

    def _lemma(self, record):
        fields = {"lemma": str(self.lemma_names[record.lemma])}
        if record.conclusion is None:
            return "lemma clash", fields
        return "lemma", {**fields, "words": literal_words(self.view, record.conclusion)}

    def _mode(self, record):
        told = [premise.atom[-1] for premise in record.premises if premise.atom[0] in ("Member", "Der")]
        if record.given == "clash" and len(told) == 2 and told[0] == told[1]:
            return "mode clash both", {"a": name(told[0])}
        return f"mode {record.given}", {}


# Merging


def _is(item: Item, group: str, *given: str) -> bool:
    return isinstance(item, Record) and item.group == group and item.given in given


def _target(record: Record) -> int:
    return record.facts[0].values[1]


# These stand just before what first uses them.
DELAYED = (("A3", "Tail"), ("A5", "-Tail"), ("A7", "Unmet"), ("B5", "Der"))


def gathered(items: Sequence[Item]) -> list[Item]:
    """The items with each demand for an answer just before what answers it."""
    out: list[Item] = []
    waiting: dict[Literal, Record] = {}

    def put_before(item: Item) -> None:
        for premise in _needs(item):
            if premise in waiting:
                needed = waiting.pop(premise)
                put_before(needed)
                out.append(needed)

    for item in items:
        if any(_is(item, *kind) for kind in DELAYED) and not _is_known(item):
            waiting[item.conclusion] = item
        else:
            put_before(item)
            out.append(item)
    return out + list(waiting.values())


def _is_known(item: Item) -> bool:
    """Whether a statement follows from a rule that needs nothing."""
    return _is(item, "B5", "Der") and not item.facts[0].values[2]


def _needs(item: Item) -> list[Literal]:
    if isinstance(item, Record):
        return list(item.premises)
    return [premise for record in walk(item.items) for premise in record.premises]


def merged(items: Sequence[Item]) -> list[list[Item]]:
    """The items, with those together that one sentence tells."""
    groups: list[list[Item]] = []
    left = gathered(items)
    while left:
        count = next((count for count in (_run(left), _pair(left)) if count > 1), 1)
        groups.append(left[:count])
        left = left[count:]
    return groups


RUNS = (("A2", "-Member"), ("A11", "-Range"), ("B5", "Der"))


def _run(items: Sequence[Item]) -> int:
    """How many of the first items exclude one argument each, are left without a verdict, or are known."""
    first = items[0]
    if isinstance(first, Record) and (first.group, first.given) in RUNS:
        return _independent(items, lambda item: _is(item, first.group, first.given) and _is_plain(item))
    if not _is(first, "A5", "-Tail") or not _is_plain(first):
        return 1
    attacker = first.conclusion.atom[1]

    def is_out(item):
        return item is first or (_is(item, "A3", "-Member") and item.facts[0].values[0] == attacker != _target(item)
                                 and first.conclusion in item.premises)

    return _independent(items, is_out, {first.conclusion})


def _is_plain(item: Record) -> bool:
    """Whether nothing but its own kind's words is needed, and of a rule, that it needs nothing."""
    if any(fact.name.startswith("some ") for fact in item.facts):
        return False
    return item.group != "B5" or (not item.facts[0].values[2] and item.conclusion.atom[1] == OWN)


def _independent(items: Sequence[Item], fits: Callable[[Item], bool], allowed: Iterable[Literal] = ()) -> int:
    """How many of the first items fit and don't rest on one another, but on what is allowed."""
    count, concluded = 0, set()
    while count < len(items) and fits(items[count]) and not concluded.intersection(items[count].premises):
        concluded |= {items[count].conclusion} - set(allowed)
        count += 1
    return count


def _pair(items: Sequence[Item]) -> int:
    """2 where the first two items make one sentence, else 1."""
    if len(items) < 2 or not all(isinstance(item, Record) for item in items[:2]):
        return 1
    first, second = items[:2]
    partial = any(fact.name.startswith("some ") for fact in first.facts + second.facts)
    if first.conclusion not in second.premises or partial:
        return 1
    demands = _is(first, "A3", "Tail") and _target(first) != first.facts[0].values[0]
    fits = (
        (demands and _is(second, "A5", "Member", "clash"))
        or (_is(first, "A5", "-Tail") and _is(second, "A3", "clash"))
        or (_is(first, "A7", "Unmet") and _is(second, "A8", "-Tail", "clash"))
        or (_is(first, "A8", "-Unmet") and _is(second, "A7", "Member"))
        or (_is(first, "B5", "Der") and first.conclusion.atom[1] == OWN and _is(second, "B12", "-Member", "clash"))
    )
    return 2 if fits else 1


class Merging:
    """The words of several records in one sentence."""

    def __init__(self, view: View, wording: Wording):
        self.view = view
        self.wording = wording

    def of(self, records: Sequence[Record]) -> str:
        """The words, without capital and stop."""
        first, second = records[:2]
        if first.group == "A2":
            return MERGED["excluded"].format(reasons=listed([self._excluded(record) for record in records], "or"))
        if first.group == "A11":
            return MERGED["no verdict"].format(list=names_of((r.conclusion.atom[1] for r in records), "or"))
        if first.group == second.group == "B5":
            return MERGED["known"].format(list=names_of(r.conclusion.atom[2] for r in records))
        if first.group == "A5":
            return self._unanswered(records)
        if first.group == "B5":
            return self._against(first, second)
        last = second if first.group != "A8" else first
        key, fields = self.wording.key(last)
        many = key.split()[-1]
        if first.group == "A3":
            fields["b"], fields["a"] = name(first.facts[0].values[0]), name(_target(first))
            return MERGED[f"demand {'clash ' if second.conclusion is None else ''}{many}"].format(**fields)
        given = f"{second.given} " if first.group == "A7" else ""
        return MERGED[f"{'undefended' if first.group == 'A7' else 'defended'} {given}{many}"].format(**fields)

    def _excluded(self, record: Record) -> str:
        key, fields = self.wording.key(record)
        reasons = {"of": "(attacked by {y})", "on": "(which attacks {y})", "self": "(which attacks itself)"}
        return f"{name(record.conclusion.atom[1])} {reasons[key.split()[-1]].format(**fields)}"

    def _unanswered(self, records: Sequence[Record]) -> str:
        first, last = records[0], records[-1]
        b, those = first.facts[0].values
        fields = {"b": name(b), "a": name(_target(last)), "list": names_of(those)}
        if last.conclusion is None:
            return MERGED[f"unanswered clash {_how_many(those)}"].format(**fields)
        out = [_target(record) for record in records[1:]]
        fields["out"] = names_of(out)
        return MERGED[f"unanswered {_how_many(those)}"].format(**fields)

    def _against(self, first: Record, second: Record) -> str:
        a, c = second.facts[0].values
        _, _, body = first.facts[0].values
        key = "against" + (" clash" if second.conclusion is None else "") + ("" if body else " known")
        return MERGED[key].format(a=name(a), body=names_of(body), **self.wording.get("c", c))


# Paragraphs


class Narrator:
    """Tells refutations of one answer with paragraphs numbered on."""

    def __init__(self, view: View):
        self.view = view
        self.number = 0
        self.first = 1
        self.ground: dict[Literal, int] = {}
        self.wording = Wording(view)

    def common_ground(self, refutations: Sequence[Refutation]) -> list[Sentence]:
        """What follows from the mode alone in any of the refutations, told once and taken out of them."""
        found: dict[Literal, Record] = {}
        for refutation in refutations:
            refutation.items = self._without_ground(refutation.items, found)
            for lemma in refutation.lemmas:
                lemma.items = self._without_ground(lemma.items, found)
        used = {premise for refutation in refutations for premise in _all_premises(refutation)}
        kept: list[Record] = []
        for literal, record in reversed(found.items()):
            if literal in used:
                used.update(record.premises)
                kept.insert(0, record)
        sentences = self.told(sorted(kept, key=lambda record: not _is_known(record)), {})
        for one in sentences:
            self.ground.update((record.conclusion, one.number) for record in one.records)
        return sentences

    def _without_ground(self, items: Sequence[Item], found: dict[Literal, Record]) -> list[Item]:
        kept: list[Item] = []
        for item in items:
            if isinstance(item, Case):
                item.items = self._without_ground(item.items, found)
                kept.append(item)
            elif self._is_ground(item, found):
                found.setdefault(item.conclusion, item)
            else:
                kept.append(item)
        return kept

    def _is_ground(self, record: Record, found: dict[Literal, Record]) -> bool:
        if record.conclusion is None or record.side is not None or record.lemma is not None:
            return False
        return all((premise.atom[0] in MODES and premise.positive) or premise in found for premise in record.premises)

    def refutation(self, refutation: Refutation) -> list[Sentence]:
        """The paragraphs of a refutation, its lemmas first."""
        self.wording = Wording(self.view, refutation.claim, refutation.lemmas)
        self.first = self.number + 1
        self.lemma_paragraphs: dict[int, int] = {}
        sentences = []
        for number, lemma in enumerate(refutation.lemmas, 1):
            self.number += 1
            lemma.number = self.number
            self.lemma_paragraphs[lemma.step] = self.number
            heading = f"Lemma {number}. {self.supposition(refutation.claim, lemma.supposed, lemma.sides)}:"
            own = Sentence(heading, [], self.number)
            own.items = self.told(lemma.items, dict(self.ground))
            sentences.append(own)
        return sentences + self.told(refutation.items, dict(self.ground))

    def told(self, items: Sequence[Item], known: dict[Literal, int]) -> list[Sentence]:
        """The paragraphs of a scope; `known` says in which paragraph each conclusion stands."""
        sentences = []
        for group in merged(items):
            before = self.number if self.number >= self.first else 0
            self.number += 1
            if isinstance(group[0], Case):
                told = self._case(group[0], known)
            else:
                told = Sentence(self._text(group), list(group), self.number)
                told.cites = self._cites(group, known, before)
                known.update((record.conclusion, told.number) for record in group if record.conclusion is not None)
            for item in group:
                item.number = told.number
            sentences.append(told)
        return sentences

    def _text(self, group: Sequence[Record]) -> str:
        words = Merging(self.view, self.wording).of(group) if len(group) > 1 else self.wording.of(group[0])
        text = sentence(words)
        return text + " That can't be." if group[-1].conclusion is None else text

    def _case(self, case: Case, known: dict[Literal, int]) -> Sentence:
        words = literal_words(self.view, case.claim)
        otherwise = "otherwise"
        if words.startswith("it "):
            otherwise = "it did" if words.startswith("it doesn't") else "it didn't"
        told = Sentence(f"{sentence(words)} Suppose {otherwise}:", [], self.number)
        told.case = case
        told.items = self.told(case.items, {**known, case.supposed: told.number})
        known[case.claim] = told.number
        return told

    def _cites(self, group: Sequence[Record], known: dict[Literal, int], before: int) -> list[int]:
        own = {record.conclusion for record in group}
        premises = {premise for record in group for premise in record.premises if premise not in own}
        numbers = {known[premise] for premise in premises if premise in known}
        numbers |= {self.lemma_paragraphs[record.lemma] for record in group if record.lemma is not None}
        return sorted(numbers - {before})

    def supposition(self, claim: Claim, supposed: Sequence[Literal], sides: Sequence[int]) -> str:
        """What is supposed of the position, as a sentence without its end."""
        mode = next((literal.atom[0] for literal in claim.goals if literal.atom[0] in MODES), "Ad")
        parts = self._goal_words(claim, supposed)
        if sides:
            parts.append(self._except_words(claim, sides))
        if mode in ("Ad", "Co"):
            return f"Suppose there is {listed([POSITIONS[mode], *parts])}"
        return f"Suppose there is {POSITIONS[mode]}" + (f" that {listed(parts)}" if parts else "")

    def _except_words(self, claim: Claim, sides: Sequence[int]) -> str:
        """What a supposed position isn't, by its side clauses."""
        kind = claim.sides[sides[0] - 1].kind
        numbers = sorted({number for side in sides for number in claim.sides[side - 1].sets})
        one, several = UNLESS[kind]
        if len(numbers) == 1:
            return one.format(set=set_name(numbers[0]))
        whole = len(sides) == len(claim.sides)
        return several.format(sets="the sets shown" if whole else listed([set_name(number) for number in numbers]))

    def _goal_words(self, claim: Claim, supposed: Sequence[Literal]) -> list[str]:
        """What a supposed position does beyond its mode, without "it"."""
        held = [literal.atom[1] for literal in supposed if literal.atom[0] == "Member" and literal.positive]
        lacking = [literal.atom[1] for literal in supposed if literal.atom[0] == "Member" and not literal.positive]
        seen = [literal.atom[1] for literal in supposed if literal.atom[0] == "Range"]
        verb = "assumes" if self.view.is_rules else "holds"
        parts = []
        if claim.about in ("largest", "ideal") and held:
            parts.append(f"holds all of {set_name(1)}")
        elif held:
            parts.append(f"{verb} {names_of(held)}")
        if claim.about == "ideal" and lacking:
            parts.append("holds nothing that one of the sets shown attacks")
        elif lacking:
            parts.append(f"doesn't {verb[:-1]} {names_of(lacking, 'or')}")
        if seen:
            whole = claim.about == "widest"
            parts.append("has each verdict that the set has" if whole else f"has a verdict on {names_of(seen)}")
        rest = [literal for literal in supposed if literal.atom[0] not in ("Member", "Range", *MODES)]
        return parts + [literal_words(self.view, literal).removeprefix("it ") for literal in rest]


def _all_premises(refutation: Refutation) -> Iterator[Literal]:
    for record in walk([*refutation.items, *(item for lemma in refutation.lemmas for item in lemma.items)]):
        yield from record.premises
