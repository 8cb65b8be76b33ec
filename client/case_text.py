"""The lines of a case, as they are read: what each says, and whether they go together. The notation is told in case.py.

`read_case` returns the statements of a text, or raises `CaseError` with all of its faults. Where a line can't be read,
whether the others go together isn't asked.
"""
from __future__ import annotations

import re
import unicodedata
from collections.abc import Iterable, Iterator, Mapping, Sequence
from dataclasses import dataclass
from difflib import get_close_matches
from enum import Enum
from typing import NamedTuple, Optional, Union

import burgaouez
from burgaouez import Kind

RESERVED = ("assume", "known", "attacks", "against", "if")
RELATIONS = ("attacks", "against", "if")
NAME = re.compile(burgaouez.NAME)
FIRST_WORD = re.compile(r"([^\s:]+)\s*(:?)\s*(.*)")


class FaultName(Enum):
    """What can be wrong in a case, in the order in which faults of one line are told."""

    BAD_LINE = "BadLine"
    BAD_NAME = "BadName"
    RESERVED_NAME = "ReservedName"
    TWO_TEXTS = "TwoTexts"
    MIXED_KINDS = "MixedKinds"
    UNKNOWN_NAME = "UnknownName"
    ASSUMED_HEAD = "AssumedHead"
    NOT_ASSUMED = "NotAssumed"
    TOO_MANY = "TooMany"


UNREADABLE = (FaultName.BAD_LINE, FaultName.BAD_NAME, FaultName.RESERVED_NAME)


@dataclass(frozen=True)
class CaseFault:
    """A fault of a line, counted from 1, and a sentence that says what to do about it."""

    line: int
    name: FaultName
    advice: str

    def __str__(self) -> str:
        return f"line {self.line} {self.name.value}: {self.advice}"


class CaseError(burgaouez.ArgueError):
    """A case, or a script in its names, has faults. `faults` has them by their lines; `line` and `name` are of the
    first."""

    def __init__(self, faults: Iterable[CaseFault]):
        order = list(FaultName)
        self.faults = tuple(sorted(faults, key=lambda fault: (fault.line, order.index(fault.name))))
        self.line = self.faults[0].line
        self.name = self.faults[0].name
        super().__init__("\n".join(map(str, self.faults)))


# What the lines of a case say


class Says(NamedTuple):
    """`name: TEXT`"""

    line: int
    name: str
    text: str


class Attacks(NamedTuple):
    """`attacker attacks targets`"""

    line: int
    attacker: str
    targets: tuple[str, ...]


class Assumes(NamedTuple):
    """`assume name: TEXT`"""

    line: int
    name: str
    text: str


class Concludes(NamedTuple):
    """`head if body`, and `known head: TEXT`, which has no body."""

    line: int
    head: str
    body: tuple[str, ...]
    text: str


class Opposes(NamedTuple):
    """`contrary against assumption`"""

    line: int
    contrary: str
    assumption: str


Statement = Union[Says, Attacks, Assumes, Concludes, Opposes]


def kind_of(statement: Statement) -> Optional[Kind]:
    """The kind of case that a statement belongs to; a text alone belongs to either."""
    if isinstance(statement, Says):
        return None
    return Kind.ATTACKS if isinstance(statement, Attacks) else Kind.RULES


def names_in(statement: Statement) -> tuple[str, ...]:
    """The names of a statement, in the order of its words."""
    match statement:
        case Says(_, name, _) | Assumes(_, name, _):
            return (name,)
        case Attacks(_, attacker, targets):
            return (attacker, *targets)
        case Concludes(_, head, body, _):
            return (head, *body)
        case Opposes(_, contrary, assumption):
            return (contrary, assumption)
    raise TypeError(statement)


class _Unreadable(Exception):
    """A line that says nothing; raised and taken within the reader."""

    def __init__(self, name: FaultName, advice: str):
        super().__init__(advice)
        self.name = name
        self.advice = advice


def suggestion(near: Sequence[str]) -> str:
    """The end of a sentence that offers names which look alike, if there are any."""
    return f"; is {' or '.join(near)} meant?" if near else ""


def normal(name: str) -> str:
    """A name as it is kept: an accented letter is one character, however it was typed."""
    return unicodedata.normalize("NFC", name)


def _checked(word: str) -> str:
    """The name, if it may be one."""
    name = normal(word.strip())
    if name in RESERVED:
        raise _Unreadable(FaultName.RESERVED_NAME, f"{name} is a word of the notation, and can't be a name")
    if NAME.fullmatch(name):
        return name
    if not name:
        raise _Unreadable(FaultName.BAD_NAME, "a name is missing")
    if re.search(r"\s", name):
        raise _Unreadable(FaultName.BAD_NAME, f"{name!r} isn't one name; names are separated by commas")
    raise _Unreadable(FaultName.BAD_NAME, f"{name!r} is no name: a letter, then letters, digits, - and _")


def _listed(text: str) -> tuple[str, ...]:
    return tuple(dict.fromkeys(_checked(part) for part in text.split(",")))


def _statement(line: int, text: str) -> Statement:
    """What a line says. Raises _Unreadable."""
    first = FIRST_WORD.fullmatch(text)
    word, colon, rest = first.groups() if first else (text, "", "")
    if colon:
        return Says(line, _checked(word), rest)
    if word in ("assume", "known"):
        name, _, said = rest.partition(":")
        named = _checked(name)
        return Assumes(line, named, said.strip()) if word == "assume" else Concludes(line, named, (), said.strip())
    relation, others = (*rest.split(None, 1), "", "")[:2]
    if relation not in RELATIONS:
        raise _Unreadable(FaultName.BAD_LINE, _advice(word, relation))
    return _related(line, _checked(word), relation, others)


def _related(line: int, name: str, relation: str, others: str) -> Statement:
    if not others.strip():
        raise _Unreadable(FaultName.BAD_LINE, f"names are missing behind {relation}")
    if relation == "attacks":
        return Attacks(line, name, _listed(others))
    if relation == "if":
        return Concludes(line, name, _listed(others), "")
    return Opposes(line, name, _checked(others))


def _advice(word: str, relation: str) -> str:
    """What may have been meant by a line that is none."""
    near = get_close_matches(relation, RELATIONS, n=1) or get_close_matches(word, ("assume", "known"), n=1)
    if near:
        return f"the line has none of the notation's words{suggestion(near)}"
    return f"the line says nothing in the notation; is a `:` missing behind {word}?"


def _read(text: str) -> tuple[list[Statement], list[CaseFault]]:
    statements, faults = [], []
    for number, line in enumerate(text.removeprefix("\ufeff").split("\n"), start=1):
        if not line.strip() or line.strip().startswith("#"):
            continue
        try:
            statements.append(_statement(number, line.strip()))
        except _Unreadable as fault:
            faults.append(CaseFault(number, fault.name, fault.advice))
    return statements, faults


# Whether the lines of a case go together


def text_of(statement: Statement) -> str:
    """The text that a line gives to its first name, or nothing."""
    return statement.text if isinstance(statement, (Says, Assumes, Concludes)) else ""


def _two_texts(statements: Sequence[Statement]) -> Iterator[CaseFault]:
    told: dict[str, int] = {}
    for statement in statements:
        if not text_of(statement):
            continue
        name = names_in(statement)[0]
        if name in told:
            yield CaseFault(statement.line, FaultName.TWO_TEXTS, f"{name} has a text in line {told[name]} already")
        told.setdefault(name, statement.line)


def _mixed_kinds(statements: Sequence[Statement], kind: Kind) -> Iterator[CaseFault]:
    for statement in statements:
        if kind_of(statement) not in (None, kind):
            advice = "a case has attacks, or assumptions and rules, and not both"
            yield CaseFault(statement.line, FaultName.MIXED_KINDS, advice)


def _unknown_names(statements: Sequence[Statement], kind: Kind) -> Iterator[CaseFault]:
    """Of attacks alone: there a name that no line tells a text of is mostly a slip."""
    if kind is Kind.RULES:
        return
    said = {statement.name for statement in statements if isinstance(statement, Says)}
    unknown: set[str] = set()
    for statement in statements:
        for name in names_in(statement):
            if name not in said and name not in unknown:
                unknown.add(name)
                near = suggestion(get_close_matches(name, said, n=1))
                yield CaseFault(statement.line, FaultName.UNKNOWN_NAME, f"no line `{name}: TEXT` is there{near}")


def _bad_heads(statements: Sequence[Statement]) -> Iterator[CaseFault]:
    assumed: set[str] = set()
    heads: set[str] = set()
    for statement in statements:
        if isinstance(statement, Assumes):
            assumed.add(statement.name)
        if isinstance(statement, Concludes):
            heads.add(statement.head)
        name = names_in(statement)[0]
        if isinstance(statement, (Assumes, Concludes)) and name in assumed and name in heads:
            advice = f"{name} is assumed and concluded; let a rule conclude another statement, or don't assume it"
            yield CaseFault(statement.line, FaultName.ASSUMED_HEAD, advice)


def _bad_contraries(statements: Sequence[Statement]) -> Iterator[CaseFault]:
    assumed = {statement.name for statement in statements if isinstance(statement, Assumes)}
    for statement in statements:
        if isinstance(statement, Opposes) and statement.assumption not in assumed:
            near = suggestion(get_close_matches(statement.assumption, assumed, n=1))
            advice = f"{statement.assumption} isn't assumed, so nothing can be against it{near}"
            yield CaseFault(statement.line, FaultName.NOT_ASSUMED, advice)


def _too_many(statements: Sequence[Statement], numbers: Mapping[str, int]) -> Iterator[CaseFault]:
    rules = attacks = against = 0
    for statement in statements:
        rules += isinstance(statement, Concludes)
        against += isinstance(statement, Opposes)
        attacks += len(statement.targets) if isinstance(statement, Attacks) else 0
        last = max(numbers[name] for name in names_in(statement))
        if (
            last > burgaouez.LARGEST_NUMBER
            or rules > burgaouez.MOST_RULE_LINES
            or attacks > burgaouez.MOST_ATTACK_LINES
            or against > burgaouez.MOST_CONTRARY_LINES
        ):
            yield CaseFault(statement.line, FaultName.TOO_MANY, "a case has 1,000,000 names and rules at most")
            return


class CaseLines(NamedTuple):
    """The statements of a case, its kind, and the number of each name, in the order of first mention."""

    kind: Kind
    statements: tuple[Statement, ...]
    numbers: Mapping[str, int]


def read_case(text: str) -> CaseLines:
    """Raises CaseError with all faults, where there are any."""
    statements, faults = _read(text)
    mentioned = dict.fromkeys(name for statement in statements for name in names_in(statement))
    numbers = {name: number for number, name in enumerate(mentioned, start=1)}
    kind = next((kind for statement in statements if (kind := kind_of(statement))), Kind.ATTACKS)
    faults += [*_two_texts(statements), *_mixed_kinds(statements, kind), *_too_many(statements, numbers)]
    if not any(fault.name in UNREADABLE for fault in faults):
        faults += [*_unknown_names(statements, kind), *_bad_heads(statements), *_bad_contraries(statements)]
    if faults:
        raise CaseError(faults)
    return CaseLines(kind, tuple(statements), numbers)
