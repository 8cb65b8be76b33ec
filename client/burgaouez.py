"""Puts questions about disputes to the program `argue`, from Python.

    >>> rivals = Framework.of_attacks([(1, 2), (2, 1), (2, 3)])
    >>> solve(rivals, "EE-PR").sets
    ((1, 3), (2,))
    >>> answer = solve(rivals, "DS-PR", query=3)
    >>> answer.verdict, answer.witness
    ('NO', (2,))
    >>> check(rivals, "DS-PR", answer, query=3)
    Accepted()

The stable interface, on which other modules may rely:

`Framework` has these fields, none of which changes once it is made:

- `kind`: `Kind.ATTACKS` or `Kind.RULES`;
- `size`: N, so that the arguments or statements are 1 to N; `arguments` and `atoms` are that range for the one kind and
  empty for the other; `members` are the numbers that a set may hold: all arguments, or the assumptions;
- `attacks`: a tuple of `Attack(attacker, target)`, each once, in the order of their first lines;
- `assumptions`: a tuple of rising numbers; `contraries`: a mapping from an assumption to the rising tuple of its
  contraries, without those that have none; `contrary_pairs`: the same as pairs of an assumption and a contrary of it,
  rising; `rules`: a tuple of `Rule(number, head, body)` in the order of their lines;
- `texts`, `names`: mappings from a number to its sentence and its short name, for the numbers that have one.

`solve(framework, task, query=None, budget=None)` returns `Yes`, `No`, `Sets` or `Unknown`. The first three have a
`certificate`, a text; `Yes` and `No` a `witness`, a tuple of rising numbers or None; `Sets` has `sets`, a tuple of such
tuples in the program's order. `check(framework, task, answer, query=None)` returns `Accepted` or `Rejected`.
`answer_text` and `read_answer` write and read an answer as the program prints it. A `Script` has edits, groups of edits
and questions on a framework that changes; `Script.run` returns its `Transcript`.

Every other ending of the program is an exception, a subclass of `ArgueError`, named as in docs/USAGE.md's table of
statuses. Nothing is printed. Where the program is found: the argument `program`, else the environment variable
BURGAOUEZ_ARGUE, else `argue` at the top of the repository that this file lies in, else `argue` on the PATH. That of the
repository proves and builds the program at its first call, which takes minutes and all processors: build it by hand
first, or give `seconds`, which end that too.
"""
from __future__ import annotations

import os
import re
import shutil
import signal
import subprocess
import tempfile
from collections.abc import Iterable, Iterator, Mapping, Sequence
from dataclasses import dataclass, field, replace
from enum import Enum
from pathlib import Path
from typing import NamedTuple, Optional, Union

LARGEST_NUMBER = 1_000_000
LARGEST_FIELD = 4_294_967_295
MOST_ATTACK_LINES = 10_000_000
MOST_CONTRARY_LINES = 10_000_000
MOST_RULE_LINES = 1_000_000
MOST_EDITS = 10_000  # of a group
TASKS = tuple(
    "DC-CO DC-GR DC-PR DC-ST DC-SST DC-ID DC-STG DS-CO DS-GR DS-PR DS-ST DS-SST DS-ID DS-STG "
    "SE-CO SE-GR SE-PR SE-ST SE-SST SE-ID SE-STG EE-CO EE-PR EE-ST EE-SST EE-STG".split()
)
NAME = r"[^\W\d_][\w-]*"
COMMENT = re.compile(rf"[ \t\r]*#\s*0*([1-9][0-9]*)(?:[ \t]+({NAME}))?[ \t]*:(.*)", re.DOTALL)

Numbers = tuple[int, ...]


# Endings that are no answer


class ArgueError(Exception):
    """The program, or its client, ended without an answer."""


class ProgramNotFound(ArgueError):
    """No program is there under the name given, or under any of the usual ones."""


class TimeLimitReached(ArgueError):
    """The program ran for the seconds that the caller gave, and was ended with all that it had started."""

    def __init__(self, seconds: float):
        super().__init__(f"no answer within {seconds} seconds")
        self.seconds = seconds


class Usage(ArgueError):
    """Status 1: the program doesn't know the words, such as a task that it doesn't answer."""


class LineFault(ArgueError):
    """Status 2: a line of a text has a fault; `line` is counted from 1, `name` is the fault's in docs/USAGE.md."""

    source = ""

    def __init__(self, line: int, name: str):
        super().__init__(f"{self.source} line {line} {name}")
        self.line = line
        self.name = name


class FrameworkFault(LineFault):
    """A line of a framework's text has a fault."""

    source = "framework"


class AnswerFault(LineFault):
    """A line of an answer's text has a fault."""

    source = "answer"


class CertificateFault(LineFault):
    """A line of a certificate has a fault."""

    source = "certificate"


class ScriptFault(LineFault):
    """A line of a script has a fault."""

    source = "script"


class QueryFault(ArgueError):
    """Status 2: the query doesn't fit the framework."""


class UnknownArgument(QueryFault):
    """The framework has no argument of the number that was asked about."""

    def __init__(self, number: int):
        super().__init__(f"there is no argument {number}")
        self.number = number


class UnknownAtom(QueryFault):
    """The framework has no statement of the number that was asked about."""

    def __init__(self, number: int):
        super().__init__(f"there is no statement {number}")
        self.number = number


class TaskNotForKind(QueryFault):
    """The task isn't answered for frameworks of this kind."""


class ReadFailed(ArgueError):
    """Status 3: the program couldn't read a file; `source` tells which."""

    def __init__(self, source: str):
        super().__init__(f"the program couldn't read its file of the {source}")
        self.source = source


class OutputRefused(ArgueError):
    """Status 4: what the program wrote wasn't taken whole."""


class MemoryRefused(ArgueError):
    """Status 5: the system refused the program memory."""


class LimitReached(ArgueError):
    """Status 7: the program met one of its limits; `limit` is `input`, `extensions` or `log`."""

    def __init__(self, limit: str):
        super().__init__(f"the limit of the {limit} is reached")
        self.limit = limit


class BuildFailed(ArgueError):
    """Status 70: the repository's `argue` wasn't built, and couldn't be."""


class UnexpectedEnding(ArgueError):
    """The program ended as the table of docs/USAGE.md doesn't say: by a signal, or with other words."""

    def __init__(self, status: int, output: str):
        super().__init__(f"unexpected ending with status {status}: {output[:200]!r}")
        self.status = status
        self.output = output


# Frameworks


class Kind(Enum):
    """The two kinds of framework, by the word in their header."""

    ATTACKS = "af"
    RULES = "aba"


class Attack(NamedTuple):
    """One argument attacks another, or itself."""

    attacker: int
    target: int


class Rule(NamedTuple):
    """Where all of the body hold, so does the head; without a body it always holds. `number` counts from 1."""

    number: int
    head: int
    body: Numbers


class InvalidFramework(ArgueError, ValueError):
    """Numbers make no framework; `name` is that of the fault which a line of a text with them would have."""

    def __init__(self, name: str, number: int):
        super().__init__(f"{name} {number}")
        self.name = name
        self.number = number


@dataclass(frozen=True)
class Framework:
    """A dispute: arguments and attacks, or assumptions, rules and contraries. The fields are told at the module's head.

    Made by `from_text`, `from_file`, `of_attacks` and `of_rules`.

    Raises InvalidFramework for numbers out of range, for an assumption that heads a rule, for a contrary of no
    assumption, and for a name that isn't a letter with letters, digits, `-` and `_` behind it.
    """

    kind: Kind
    size: int
    attacks: tuple[Attack, ...] = ()
    assumptions: Numbers = ()
    contraries: Mapping[int, Numbers] = field(default_factory=dict)
    rules: tuple[Rule, ...] = ()
    texts: Mapping[int, str] = field(default_factory=dict)
    names: Mapping[int, str] = field(default_factory=dict)

    def __post_init__(self):
        if not 0 <= self.size <= LARGEST_NUMBER:
            raise InvalidFramework("OutOfRange", self.size)
        for number in self._numbers():
            if not 1 <= number <= self.size:
                raise InvalidFramework("OutOfRange", number)
        for number, name in self.names.items():
            if not re.fullmatch(NAME, name):
                raise InvalidFramework("BadName", number)
        assumed = set(self.assumptions)
        for rule in self.rules:
            if rule.head in assumed:
                raise InvalidFramework("NotFlat", rule.head)
        for number in self.contraries:
            if number not in assumed:
                raise InvalidFramework("ContraryOfNonAssumption", number)

    @classmethod
    def of_attacks(
        cls,
        attacks: Iterable[tuple[int, int]],
        size: Optional[int] = None,
        texts: Optional[Mapping[int, str]] = None,
        names: Optional[Mapping[int, str]] = None,
    ) -> Framework:
        """The framework of pairs of an attacker and its target; `size` is the number of arguments, which is the largest
        number in the pairs where it isn't given.

        >>> Framework.of_attacks([(1, 2), (1, 2)]).attacks
        (Attack(attacker=1, target=2),)
        """
        pairs = tuple(dict.fromkeys(Attack(attacker, target) for attacker, target in attacks))
        if size is None:
            size = max((number for pair in pairs for number in pair), default=0)
        return cls(Kind.ATTACKS, size, attacks=pairs, texts=dict(texts or {}), names=dict(names or {}))

    @classmethod
    def of_rules(
        cls,
        assumptions: Iterable[int],
        contraries: Mapping[int, Union[int, Iterable[int]]],
        rules: Iterable[tuple[int, Iterable[int]]],
        size: Optional[int] = None,
        texts: Optional[Mapping[int, str]] = None,
        names: Optional[Mapping[int, str]] = None,
    ) -> Framework:
        """The framework of assumptions, the contrary or contraries of each that has any, and rules as pairs of a head
        and its body, which are numbered from 1 in this order.

        >>> Framework.of_rules([1], {1: 2}, [(2, [1])]).rules
        (Rule(number=1, head=2, body=(1,)),)
        >>> Framework.of_rules([1, 2], {1: [3, 2], 2: 3}, []).contraries
        {1: (2, 3), 2: (3,)}
        """
        assumed = tuple(sorted(set(assumptions)))
        numbered = tuple(
            Rule(number, head, tuple(dict.fromkeys(body))) for number, (head, body) in enumerate(rules, start=1)
        )
        against = _rows({a: (c,) if isinstance(c, int) else c for a, c in contraries.items()})
        if size is None:
            used = [*assumed, *(n for row in against.values() for n in row)]
            used += [n for rule in numbered for n in (rule.head, *rule.body)]
            size = max(used, default=0)
        return cls(
            Kind.RULES,
            size,
            assumptions=assumed,
            contraries=against,
            rules=numbered,
            texts=dict(texts or {}),
            names=dict(names or {}),
        )

    @classmethod
    def from_text(cls, text: str) -> Framework:
        """The framework that a text in docs/USAGE.md's format describes, with the sentences and names of its comments
        `# N: TEXT` and `# N NAME: TEXT`. Of two comments on a number the first counts, of two numbers with a name too.

        Raises FrameworkFault for the first line with a fault, named as the program names it.

        >>> three = Framework.from_text("p af 3\\n# 1 alibi: She was abroad.\\n1 2\\n2 3\\n")
        >>> three.names[1], three.texts[1], three.attacks[1].target
        ('alibi', 'She was abroad.', 3)
        """
        return _framework_of(text)

    @classmethod
    def from_file(cls, path: Union[str, os.PathLike]) -> Framework:
        """The framework of a file. Raises FrameworkFault, and OSError where the file can't be read."""
        return cls.from_text(Path(path).read_bytes().decode("utf-8", "surrogateescape"))

    @property
    def arguments(self) -> range:
        """1 to N in a framework of attacks; none in one of rules."""
        return range(1, self.size + 1 if self.kind is Kind.ATTACKS else 1)

    @property
    def atoms(self) -> range:
        """1 to N in a framework of rules; none in one of attacks."""
        return range(1, self.size + 1 if self.kind is Kind.RULES else 1)

    @property
    def members(self) -> Sequence[int]:
        """The numbers that a set may hold, rising: all arguments, or the assumptions."""
        return self.arguments if self.kind is Kind.ATTACKS else self.assumptions

    @property
    def contrary_pairs(self) -> tuple[tuple[int, int], ...]:
        """The pairs of an assumption and a contrary of it, by assumption, then by contrary."""
        return tuple((number, contrary) for number, row in sorted(self.contraries.items()) for contrary in row)

    @property
    def tasks(self) -> tuple[str, ...]:
        """The tasks that are answered for this kind: all, or all without SST and STG.

        >>> len(Framework.of_attacks([]).tasks), len(Framework.of_rules([], {}, []).tasks)
        (26, 18)
        """
        if self.kind is Kind.ATTACKS:
            return TASKS
        return tuple(task for task in TASKS if not task.endswith(("-SST", "-STG")))

    def sentence(self, number: int) -> str:
        """What a number says; the number itself where no sentence was given."""
        return self.texts.get(number, str(number))

    def closure(self, given: Iterable[int]) -> Numbers:
        """All statements that follow from the given ones by the rules, these among them, rising. In a framework of
        attacks that is what was given.

        >>> Framework.of_rules([1], {}, [(2, [1]), (3, [2]), (5, [4])]).closure([1])
        (1, 2, 3)
        >>> Framework.of_rules([1], {}, [(4, []), (4, []), (5, [4, 6])]).closure(())
        (4,)
        """
        derived = set(given)
        missing = {rule.number: len(set(rule.body)) for rule in self.rules}
        users: dict[int, list[Rule]] = {}
        for rule in self.rules:
            for number in set(rule.body):
                users.setdefault(number, []).append(rule)
        derived.update(rule.head for rule in self.rules if not rule.body)
        waiting = list(derived)
        while waiting:
            for rule in users.get(waiting.pop(), ()):
                missing[rule.number] -= 1
                if missing[rule.number] == 0 and rule.head not in derived:
                    derived.add(rule.head)
                    waiting.append(rule.head)
        return tuple(sorted(derived))

    def edited(self, edit: Edit, rule: Optional[int] = None) -> Framework:
        """The framework behind an edit that it takes. Rules keep their numbers; `rule` is that of the rule which is
        added, the one behind the last where it isn't given.

        Raises InvalidFramework where no framework has just the numbers 1 to N then: an argument is dropped, or one is
        added that isn't the next.

        >>> Framework.of_attacks([(1, 2)]).edited(DropAttack(1, 2)).attacks
        ()
        """
        return _edited(self, edit, rule or max((one.number for one in self.rules), default=0) + 1)

    def text(self) -> str:
        """The framework in docs/USAGE.md's format, with its sentences and names as comments. Rules are numbered anew by
        whoever reads it: from 1, in this order.

        >>> Framework.of_attacks([(1, 2)], texts={1: "Yes."}, names={1: "claim"}).text()
        'p af 2\\n# 1 claim: Yes.\\n1 2\\n'
        """
        lines = [f"p {self.kind.value} {self.size}"]
        lines += [_comment(number, self.names.get(number), self.texts.get(number)) for number in self._told()]
        lines += [f"{attack.attacker} {attack.target}" for attack in self.attacks]
        lines += [f"a {number}" for number in self.assumptions]
        lines += [f"c {number} {contrary}" for number, contrary in self.contrary_pairs]
        lines += [" ".join(map(str, ("r", rule.head, *rule.body))) for rule in self.rules]
        return "\n".join(lines) + "\n"

    def _told(self) -> list[int]:
        return sorted({*self.texts, *self.names})

    def _numbers(self) -> Iterator[int]:
        for attack in self.attacks:
            yield from attack
        yield from self.assumptions
        for row in self.contraries.values():
            yield from row
        for rule in self.rules:
            yield rule.head
            yield from rule.body
        yield from self.texts
        yield from self.names


def _comment(number: int, name: Optional[str], text: Optional[str]) -> str:
    words = f"# {number}" if name is None else f"# {number} {name}"
    said = (text or "").replace("\n", " ").strip()
    return f"{words}: {said}".rstrip()


def _rows(contraries: Mapping[int, Iterable[int]]) -> dict[int, Numbers]:
    """The contraries of each assumption that has any, all rising."""
    rows = {number: tuple(sorted(set(row))) for number, row in sorted(contraries.items())}
    return {number: row for number, row in rows.items() if row}


def _edited(framework: Framework, edit: Edit, rule: int) -> Framework:
    rules = framework.rules
    match edit:
        case AddArgument(number) if number == framework.size + 1:
            return replace(framework, size=number)
        case AddArgument(number) | DropArgument(number):
            raise InvalidFramework("Gap", number)
        case AddAttack(attacker, target):
            return replace(framework, attacks=(*framework.attacks, Attack(attacker, target)))
        case DropAttack(attacker, target):
            gone = Attack(attacker, target)
            return replace(framework, attacks=tuple(attack for attack in framework.attacks if attack != gone))
        case AddRule(head, body):
            return replace(framework, rules=(*rules, Rule(rule, head, body)))
        case DropRule(number):
            return replace(framework, rules=tuple(one for one in rules if one.number != number))
    return _assuming(framework, edit)


def _assuming(framework: Framework, edit: Edit) -> Framework:
    """The framework behind an edit of an assumption or of its contraries."""
    assumed, row = framework.assumptions, framework.contraries.get(edit.assumption, ())
    match edit:
        case AddAssumption(assumption, contrary):
            assumed, row = tuple(sorted({*assumed, assumption})), (contrary,) if contrary else ()
        case DropAssumption(assumption):
            assumed, row = tuple(number for number in assumed if number != assumption), ()
        case SetContrary(_, contrary):
            row = (contrary,) if contrary else ()
        case AddContrary(_, contrary):
            row = (*row, contrary)
        case DropContrary(_, contrary):
            row = tuple(number for number in row if number != contrary)
    return replace(framework, assumptions=assumed, contraries=_rows({**framework.contraries, edit.assumption: row}))


# The reader of a framework's text


class _Line(NamedTuple):
    number: int
    fields: list[str]


def _lines(text: str) -> list[str]:
    pieces = text.split("\n")
    return pieces[:-1] if pieces[-1] == "" else pieces


def _kept(lines: list[str]) -> Iterator[_Line]:
    for number, line in enumerate(lines, start=1):
        fields = [part for part in re.split("[ \t\r]", line) if part]
        if fields and not fields[0].startswith("#"):
            yield _Line(number, fields)


def _number(text: str) -> Optional[int]:
    """The value of ASCII digits that fits 32 bits."""
    if not re.fullmatch("[0-9]+", text):
        return None
    digits = text.lstrip("0")
    value = int(digits or "0") if len(digits) <= 10 else LARGEST_FIELD + 1
    return value if value <= LARGEST_FIELD else None


class _Reading:
    """What was read of a framework's text up to some line."""

    def __init__(self, kind: Kind, size: int):
        self.kind = kind
        self.size = size
        self.attack_lines = 0
        self.attacks: dict[Attack, None] = {}
        self.assumptions: set[int] = set()
        self.contrary_lines = 0
        self.contraries: dict[int, set[int]] = {}
        self.first_lines: dict[int, int] = {}
        self.rules: list[Rule] = []
        self.heads: set[int] = set()

    def take(self, line: _Line) -> Optional[str]:
        """Takes a line behind the header; returns the name of its fault, the first in the order of docs/USAGE.md."""
        fields = line.fields
        if fields[0] == "p":
            return "SecondHeader"
        if not self._has_shape(fields):
            return "BadLine"
        numbers = [_number(part) for part in (fields if self.kind is Kind.ATTACKS else fields[1:])]
        known = [number for number in numbers if number is not None]
        if len(known) < len(numbers):
            return "BadNumber"
        if not all(1 <= number <= self.size for number in known):
            return "OutOfRange"
        if self.kind is Kind.ATTACKS:
            return self._take_attack(known)
        return {"a": self._take_assumption, "c": self._take_contrary, "r": self._take_rule}[fields[0]](line, known)

    def _has_shape(self, fields: list[str]) -> bool:
        if self.kind is Kind.ATTACKS:
            return len(fields) == 2
        return (fields[0], len(fields)) in (("a", 2), ("c", 3)) or (fields[0] == "r" and len(fields) >= 2)

    def _take_attack(self, numbers: list[int]) -> Optional[str]:
        self.attack_lines += 1
        if self.attack_lines > MOST_ATTACK_LINES:
            return "TooManyLines"
        self.attacks[Attack(*numbers)] = None
        return None

    def _take_assumption(self, line: _Line, numbers: list[int]) -> Optional[str]:
        self.assumptions.add(numbers[0])
        return "NotFlat" if numbers[0] in self.heads else None

    def _take_contrary(self, line: _Line, numbers: list[int]) -> Optional[str]:
        assumption, contrary = numbers
        self.contrary_lines += 1
        if self.contrary_lines > MOST_CONTRARY_LINES:
            return "TooManyLines"
        self.first_lines.setdefault(assumption, line.number)
        self.contraries.setdefault(assumption, set()).add(contrary)
        return None

    def _take_rule(self, line: _Line, numbers: list[int]) -> Optional[str]:
        if len(self.rules) == MOST_RULE_LINES:
            return "TooManyLines"
        self.rules.append(Rule(len(self.rules) + 1, numbers[0], tuple(dict.fromkeys(numbers[1:]))))
        self.heads.add(numbers[0])
        return "NotFlat" if numbers[0] in self.assumptions else None

    def stray_contrary(self) -> Optional[int]:
        """The first line that gives a contrary to no assumption."""
        stray = [line for number, line in self.first_lines.items() if number not in self.assumptions]
        return min(stray, default=None)


def _header(line: _Line) -> _Reading:
    fields = line.fields
    if fields[0] != "p":
        raise FrameworkFault(line.number, "NoHeader")
    size = _number(fields[2]) if len(fields) == 3 else None
    if size is None or fields[1] not in ("af", "aba"):
        raise FrameworkFault(line.number, "BadHeader")
    if size > LARGEST_NUMBER:
        raise FrameworkFault(line.number, "OutOfRange")
    return _Reading(Kind(fields[1]), size)


def _framework_of(text: str) -> Framework:
    lines = _lines(text)
    kept = _kept(lines)
    first = next(kept, None)
    if first is None:
        raise FrameworkFault(len(lines) + 1, "NoHeader")
    reading = _header(first)
    for line in kept:
        fault = reading.take(line)
        if fault is not None:
            raise FrameworkFault(line.number, fault)
    stray = reading.stray_contrary()
    if stray is not None:
        raise FrameworkFault(stray, "ContraryOfNonAssumption")
    texts, names = _said(lines, reading.size)
    return Framework(
        reading.kind,
        reading.size,
        attacks=tuple(reading.attacks),
        assumptions=tuple(sorted(reading.assumptions)),
        contraries=_rows(reading.contraries),
        rules=tuple(reading.rules),
        texts=texts,
        names=names,
    )


def _said(lines: list[str], size: int) -> tuple[dict[int, str], dict[int, str]]:
    """The sentences and the names that comments give to the numbers 1 to `size`."""
    texts: dict[int, str] = {}
    names: dict[int, str] = {}
    seen: set[int] = set()
    for line in lines:
        comment = COMMENT.fullmatch(line)
        number = int(comment[1]) if comment and len(comment[1]) <= len(str(LARGEST_NUMBER)) else size + 1
        if number > size or number in seen:
            continue
        seen.add(number)
        if comment[3].strip():
            texts[number] = comment[3].strip()
        if comment[2] is not None and comment[2] not in names.values():
            names[number] = comment[2]
    return texts, names


# Answers


@dataclass(frozen=True)
class Yes:
    """The argument is accepted. `witness` is a set that accepts it where some set was asked for (DC), else None.
    `certificate` is its text, or None where none was asked for."""

    witness: Optional[Numbers] = None
    certificate: Optional[str] = field(default=None, repr=False)
    verdict = "YES"


@dataclass(frozen=True)
class No:
    """The argument isn't accepted, or, of SE and EE, there is no set. `witness` is a set that doesn't accept it where
    every set was asked for (DS), else None. `certificate` is as of `Yes`."""

    witness: Optional[Numbers] = None
    certificate: Optional[str] = field(default=None, repr=False)
    verdict = "NO"


@dataclass(frozen=True)
class Sets:
    """The extension that was asked for (SE), or all in order (EE). `certificate` is as of `Yes`."""

    sets: tuple[Numbers, ...]
    certificate: Optional[str] = field(default=None, repr=False)


@dataclass(frozen=True)
class Unknown:
    """Status 6: the budget was spent before there was an answer."""


Answer = Union[Yes, No, Sets, Unknown]


@dataclass(frozen=True)
class Accepted:
    """The certificate shows the answer."""


@dataclass(frozen=True)
class Rejected:
    """Status 8: the certificate doesn't show the answer; `cause` is named as in docs/USAGE.md."""

    cause: str
    refutation: int
    step: int


Verdict = Union[Accepted, Rejected]


def answer_text(answer: Union[Yes, No, Sets]) -> str:
    """An answer as the program prints it.

    >>> answer_text(Yes(witness=(1, 4)))
    'YES\\nw 1 4\\n'
    """
    if isinstance(answer, Sets):
        sets: Sequence[Numbers] = answer.sets
        lines = []
    else:
        sets = () if answer.witness is None else (answer.witness,)
        lines = [answer.verdict]
    return "".join(line + "\n" for line in lines + [" ".join(["w", *map(str, one)]) for one in sets])


def read_answer(text: str, certificate: Optional[str] = None) -> Union[Yes, No, Sets]:
    """The answer in a text as the program prints it; comments are skipped. Raises AnswerFault for the first line with a
    fault, named as the program names it.

    >>> read_answer("# by hand\\nNO\\nw 2\\n")
    No(witness=(2,))
    """
    lines = _lines(text)
    kept = list(_kept(lines))
    if not kept:
        raise AnswerFault(len(lines) + 1, "Empty")
    verdict = {"YES": Yes, "NO": No}.get(" ".join(kept[0].fields))
    sets = []
    for index, line in enumerate(kept):
        if verdict is not None and index == 0:
            continue
        if line.fields[0] != "w" or (verdict is not None and index > 1):
            raise AnswerFault(line.number, "BadLine")
        sets.append(_members(line))
    if verdict is None:
        return Sets(tuple(sets), certificate)
    return verdict(sets[0] if sets else None, certificate)


def _members(line: _Line) -> Numbers:
    """The numbers behind `w`. Raises AnswerFault."""
    numbers = tuple(_number(part) or 0 for part in line.fields[1:])
    if not all(1 <= number <= LARGEST_NUMBER for number in numbers):
        raise AnswerFault(line.number, "BadNumber")
    if not all(one < next_one for one, next_one in zip(numbers, numbers[1:])):
        raise AnswerFault(line.number, "NotRising")
    return numbers


def _answer_of(lines: Sequence[str], certificate: Optional[str]) -> Union[Yes, No, Sets]:
    """The answer in the program's lines. Raises ValueError where they are none."""
    try:
        return read_answer("\n".join(lines) + "\n", certificate)
    except AnswerFault:
        raise ValueError("the program's lines are no answer") from None


# Running the program


def find_program(program: Union[str, os.PathLike, None] = None) -> str:
    """The program's path, by the order told at the module's head. Raises ProgramNotFound."""
    named = program if program is not None else os.environ.get("BURGAOUEZ_ARGUE")
    if named:
        found = shutil.which(os.fspath(named))
        if found is None:
            raise ProgramNotFound(f"there is no program {os.fspath(named)}")
        return found
    beside = Path(__file__).resolve().parent.parent / "argue"
    found = shutil.which(str(beside)) or shutil.which("argue")
    if found is None:
        raise ProgramNotFound("argue is neither in the repository nor on the PATH")
    return found


class _Ending(NamedTuple):
    status: int
    output: str
    errors: str


def _run(program: str, words: Sequence[str], seconds: Optional[float]) -> _Ending:
    """Runs the program in a process group of its own, which is ended as a whole at the time limit."""
    try:
        child = subprocess.Popen(
            [program, *words],
            stdin=subprocess.DEVNULL,
            stdout=subprocess.PIPE,
            stderr=subprocess.PIPE,
            encoding="utf-8",
            errors="replace",
            start_new_session=True,
        )
    except OSError as fault:
        raise ProgramNotFound(f"{program} can't be run: {fault.strerror}") from fault
    try:
        output, errors = child.communicate(timeout=seconds)
    except subprocess.TimeoutExpired:
        raise TimeLimitReached(seconds) from None
    finally:
        if child.returncode is None:
            _end(child)
    return _Ending(child.returncode, output, errors)


def _end(child: subprocess.Popen) -> None:
    """Ends the child and its group, and waits for nobody who holds its output open."""
    try:
        os.killpg(child.pid, signal.SIGKILL)
    except ProcessLookupError:
        pass
    child.stdout.close()
    child.stderr.close()
    child.wait()


LINE_FAULTS = {kind.source: kind for kind in (FrameworkFault, AnswerFault, CertificateFault, ScriptFault)}


def _faulty_text(words: list[str]) -> Optional[ArgueError]:
    """The fault in the words behind `error:`, of status 2."""
    match words:
        case [source, "line", line, name] if source in LINE_FAULTS and _number(line) is not None:
            return LINE_FAULTS[source](int(line), name)
        case ["query", "UnknownArgument", number] if _number(number) is not None:
            return UnknownArgument(int(number))
        case ["query", "UnknownAtom", number] if _number(number) is not None:
            return UnknownAtom(int(number))
        case ["query", "TaskNotForKind"]:
            return TaskNotForKind("the task isn't answered for this kind of framework")
    return None


def _error_of(ending: _Ending) -> ArgueError:
    """The exception for a status that is no answer."""
    first = ending.output.split("\n")[0]
    words = first.removeprefix("error: ").split(" ") if first.startswith("error: ") else []
    match ending.status, words:
        case 1, ["usage"]:
            return Usage("the program doesn't know these words")
        case 2, _ if (fault := _faulty_text(words)) is not None:
            return fault
        case 3, ["read", source]:
            return ReadFailed(source)
        case 4, _:
            return OutputRefused("what the program wrote wasn't taken whole")
        case 5, _:
            return MemoryRefused("the program was refused memory")
        case 7, ["limit", limit]:
            return LimitReached(limit)
        case 70, _:
            return BuildFailed(ending.errors.strip())
    return UnexpectedEnding(ending.status, ending.output)


def _write(folder: str, name: str, text: str) -> str:
    path = os.path.join(folder, name)
    Path(path).write_bytes(text.encode("utf-8", "surrogateescape"))
    return path


def _asked(task: str, query: Optional[int]) -> list[str]:
    return ["-p", task] if query is None else ["-p", task, "-a", str(query)]


def _read_if_there(path: str) -> Optional[str]:
    return Path(path).read_text(encoding="ascii") if os.path.exists(path) else None


def solve(
    framework: Framework,
    task: str,
    query: Optional[int] = None,
    budget: Optional[int] = None,
    *,
    certify: bool = True,
    seconds: Optional[float] = None,
    program: Union[str, os.PathLike, None] = None,
) -> Answer:
    """Asks the program one of `TASKS`, of which DC and DS need the number `query`.

    `budget` is how many clauses the search may learn, `seconds` how long the program may run, and `certify` whether a
    certificate is made.

    Raises UnknownArgument, UnknownAtom, TaskNotForKind, Usage for a task that isn't one or a query too many or too few,
    LimitReached, TimeLimitReached, ProgramNotFound and the other exceptions of this module.

    >>> three = Framework.of_attacks([(1, 2), (2, 3)])
    >>> solve(three, "SE-GR", certify=False)
    Sets(sets=((1, 3),))
    >>> solve(three, "DC-PR", query=3)
    Yes(witness=(1, 3))
    """
    with tempfile.TemporaryDirectory() as folder:
        words = [*_asked(task, query), "-f", _write(folder, "framework", framework.text())]
        certificate = os.path.join(folder, "certificate")
        words += [] if budget is None else ["-b", str(budget)]
        words += ["-c", certificate] if certify else []
        ending = _run(find_program(program), words, seconds)
        if ending.status == 6 and ending.output == "UNKNOWN\n":
            return Unknown()
        if ending.status != 0:
            raise _error_of(ending)
        try:
            return _answer_of(ending.output.splitlines(), _read_if_there(certificate))
        except ValueError:
            raise UnexpectedEnding(0, ending.output) from None


def check(
    framework: Framework,
    task: str,
    answer: Union[Yes, No, Sets],
    query: Optional[int] = None,
    certificate: Optional[str] = None,
    *,
    seconds: Optional[float] = None,
    program: Union[str, os.PathLike, None] = None,
) -> Verdict:
    """Asks whether a certificate shows an answer: the one given, or else the answer's own.

    Raises CertificateFault for a certificate that can't be read, ValueError where there is none, and the exceptions of
    `solve`.

    >>> three = Framework.of_attacks([(1, 2), (2, 3)])
    >>> answer = solve(three, "DC-PR", query=3)
    >>> check(three, "DC-PR", Yes(witness=(2,)), query=3, certificate=answer.certificate)
    Rejected(cause='BadWitness', refutation=0, step=1)
    """
    shown = certificate if certificate is not None else answer.certificate
    if shown is None:
        raise ValueError("there is no certificate")
    with tempfile.TemporaryDirectory() as folder:
        words = ["check", *_asked(task, query), "-f", _write(folder, "framework", framework.text())]
        words += ["-r", _write(folder, "answer", answer_text(answer)), "-c", _write(folder, "certificate", shown)]
        ending = _run(find_program(program), words, seconds)
    return _verdict_of(ending)


def _verdict_of(ending: _Ending) -> Verdict:
    match ending.status, ending.output.rstrip("\n").split(" "):
        case 0, ["ACCEPTED"]:
            return Accepted()
        case 8, ["REJECTED", cause, refutation, step]:
            return Rejected(cause, int(refutation), int(step))
        case 0, _:
            raise UnexpectedEnding(0, ending.output)
    raise _error_of(ending)


# Scripts: edits and questions on a framework that changes


class AddArgument(NamedTuple):
    """`arg N`"""

    number: int


class DropArgument(NamedTuple):
    """`noarg N`: the argument goes, with its attacks."""

    number: int


class AddAttack(NamedTuple):
    """`att B A`"""

    attacker: int
    target: int


class DropAttack(NamedTuple):
    """`noatt B A`"""

    attacker: int
    target: int


class AddAssumption(NamedTuple):
    """`asm A C`: C is the only contrary; with 0 nothing speaks against the assumption."""

    assumption: int
    contrary: int = 0


class DropAssumption(NamedTuple):
    """`noasm A`"""

    assumption: int


class SetContrary(NamedTuple):
    """`con A C`: C is the only contrary from now on; with 0 nothing speaks against the assumption any more."""

    assumption: int
    contrary: int


class AddContrary(NamedTuple):
    """`addcon A C`: C is a contrary too."""

    assumption: int
    contrary: int


class DropContrary(NamedTuple):
    """`delcon A C`: C is no contrary any more; the others stay."""

    assumption: int
    contrary: int


class AddRule(NamedTuple):
    """`rule H B1 .. Bk`"""

    head: int
    body: Numbers = ()


class DropRule(NamedTuple):
    """`norule R`"""

    rule: int


class Ask(NamedTuple):
    """`ask TASK` or `ask TASK N`"""

    task: str
    query: Optional[int] = None


Edit = Union[
    AddArgument,
    DropArgument,
    AddAttack,
    DropAttack,
    AddAssumption,
    DropAssumption,
    SetContrary,
    AddContrary,
    DropContrary,
    AddRule,
    DropRule,
]


class Group(NamedTuple):
    """`begin`, 1 to 10,000 edits, `end`: they are taken whole, or none is."""

    edits: tuple[Edit, ...]


Command = Union[Edit, Group, Ask]

EDITS: dict[str, type] = {
    "arg": AddArgument,
    "noarg": DropArgument,
    "att": AddAttack,
    "noatt": DropAttack,
    "asm": AddAssumption,
    "noasm": DropAssumption,
    "con": SetContrary,
    "addcon": AddContrary,
    "delcon": DropContrary,
    "rule": AddRule,
    "norule": DropRule,
}
COMMAND_WORDS = {kind: word for word, kind in EDITS.items()} | {Ask: "ask"}
LAST_SESSION = 8


@dataclass(frozen=True)
class ScriptLine:
    """What a session, 1 to 8, does."""

    session: int
    command: Command


@dataclass(frozen=True)
class Taken:
    """`OK`: the edit or the group is taken; `rules` are the numbers of the rules that it adds, in order."""

    rules: Numbers = ()


@dataclass(frozen=True)
class Refused:
    """`REFUSED NAME`: the framework refuses the edit, or the query doesn't fit it; with the number that it tells. Of a
    group, `edit` says which edit is the first that is refused, counted from 1."""

    name: str
    number: Optional[int] = None
    edit: Optional[int] = None


@dataclass(frozen=True)
class Limited:
    """`LIMIT NAME`: a limit of the history, of the sets of an answer or of the session's log is reached."""

    name: str


Outcome = Union[Taken, Refused, Limited, Answer]


@dataclass(frozen=True)
class Reply:
    """What a session got for its `place`-th command, counted from 1: from the framework after the first `at` entries of
    the history."""

    session: int
    place: int
    command: Command
    at: int
    outcome: Outcome


@dataclass(frozen=True)
class Entry:
    """A group of edits that was taken, a single edit being a group of one; and the session that made it."""

    session: int
    edits: tuple[Edit, ...]


@dataclass(frozen=True)
class Transcript:
    """The replies, session by session and command by command, and the groups of edits that were taken, in order."""

    replies: tuple[Reply, ...]
    history: tuple[Entry, ...]

    def of_session(self, session: int) -> tuple[Reply, ...]:
        """The replies to the commands of one session, in order."""
        return tuple(reply for reply in self.replies if reply.session == session)

    def framework_at(self, first: Framework, at: int) -> Framework:
        """The framework after the first `at` entries; `first` is that before all. Raises as `Framework.edited`."""
        now, rule = first, len(first.rules)
        for edit in (edit for entry in self.history[:at] for edit in entry.edits):
            rule += isinstance(edit, AddRule)
            now = now.edited(edit, rule)
        return now


def command_lines(command: Command) -> list[str]:
    """A command as the lines of a script have it, without the session.

    >>> command_lines(Group((DropAttack(1, 2), AddAttack(2, 1))))
    ['begin', 'noatt 1 2', 'att 2 1', 'end']
    """
    if isinstance(command, Group):
        return ["begin", *map(command_text, command.edits), "end"]
    return [command_text(command)]


def command_text(command: Union[Edit, Ask]) -> str:
    """An edit or a query as a script's line has it, without the session.

    >>> command_text(AddRule(4, (1, 2))), command_text(Ask("SE-GR"))
    ('rule 4 1 2', 'ask SE-GR')
    """
    word = COMMAND_WORDS[type(command)]
    match command:
        case AddRule(head, body):
            return " ".join([word, str(head), *map(str, body)])
        case Ask(task, query):
            return f"{word} {task}" if query is None else f"{word} {task} {query}"
    return " ".join([word, *map(str, command)])


@dataclass(frozen=True)
class Script:
    """The commands of all sessions. Each session does its own in order, all at the same time.

    >>> three = Framework.of_attacks([(1, 2), (2, 3)])
    >>> script = Script.from_text("1 ask DC-PR 3\\n1 noatt 1 2\\n1 ask SE-GR\\n")
    >>> for reply in script.run(three).replies:
    ...     print(reply.at, reply.outcome)
    0 Yes(witness=(1, 3))
    1 Taken(rules=())
    1 Sets(sets=((1, 2),))
    """

    lines: tuple[ScriptLine, ...]

    @classmethod
    def of_commands(cls, commands: Iterable[Command], session: int = 1) -> Script:
        """The script in which one session does all the commands."""
        return cls(tuple(ScriptLine(session, command) for command in commands))

    @classmethod
    def from_text(cls, text: str) -> Script:
        """A group stands where its `end` does. Raises ScriptFault for the first line with a fault, named as the program
        names it."""
        lines, groups = _lines(text), _OpenGroups()
        read = [_script_line(line, groups) for line in _kept(lines)]
        if groups.edits:
            raise ScriptFault(len(lines) + 1, "OpenGroup")
        return cls(tuple(line for line in read if line is not None))

    def text(self) -> str:
        """The script as a file has it."""
        return "".join(f"{line.session} {text}\n" for line in self.lines for text in command_lines(line.command))

    def run(
        self,
        framework: Framework,
        budget: Optional[int] = None,
        *,
        certify: bool = True,
        seconds: Optional[float] = None,
        program: Union[str, os.PathLike, None] = None,
    ) -> Transcript:
        """Runs the script. `budget` is what each query may learn; the rest is as of `solve`.

        Each answer has its certificate. A query that is refused or spends its budget is a reply, and no exception.
        Raises ScriptFault for lines that are none, and the exceptions of `solve`.
        """
        with tempfile.TemporaryDirectory() as folder:
            words = ["live", "-f", _write(folder, "framework", framework.text())]
            words += ["-s", _write(folder, "script", self.text())]
            certificates = os.path.join(folder, "certificates")
            words += [] if budget is None else ["-b", str(budget)]
            words += ["-c", certificates] if certify else []
            ending = _run(find_program(program), words, seconds)
            if ending.status != 0:
                raise _error_of(ending)
            shown = _certificates_of(_read_if_there(certificates) or "")
        try:
            return _transcript_of(self, ending.output, shown)
        except (ValueError, LookupError, TypeError):
            raise UnexpectedEnding(0, ending.output) from None


class _OpenGroups:
    """The groups that are open while a script is read: the edits of each so far, by its session."""

    def __init__(self) -> None:
        self.edits: dict[int, list[Edit]] = {}

    def may_have(self, session: int, word: str) -> bool:
        """Whether the command may stand here: `ask` and `begin` outside a group, `end` inside one."""
        return word not in ("ask", "begin") if session in self.edits else word != "end"

    def take(self, line: int, session: int, edit: Edit) -> Optional[Command]:
        """The command that an edit is, where it doesn't join a group."""
        group = self.edits.get(session)
        if group is None:
            return edit
        if len(group) == MOST_EDITS:
            raise ScriptFault(line, "GroupTooLong")
        group.append(edit)
        return None

    def end(self, line: int, session: int) -> Group:
        if not self.edits[session]:
            raise ScriptFault(line, "EmptyGroup")
        return Group(tuple(self.edits.pop(session)))


def _script_line(line: _Line, groups: _OpenGroups) -> Optional[ScriptLine]:
    """The command that ends at the line, if one does."""
    session = _number(line.fields[0])
    if session is None or not 1 <= session <= LAST_SESSION:
        raise ScriptFault(line.number, "BadSession")
    word, fields = (line.fields[1], line.fields[2:]) if len(line.fields) > 1 else ("", [])
    if not _has_command(word, len(fields)) or not groups.may_have(session, word):
        raise ScriptFault(line.number, "BadCommand")
    command = _command(line.number, session, word, fields, groups)
    return None if command is None else ScriptLine(session, command)


def _command(
    line: int, session: int, word: str, fields: Sequence[str], groups: _OpenGroups
) -> Optional[Command]:
    match word:
        case "ask":
            return _ask(line, fields)
        case "begin":
            groups.edits[session] = []
            return None
        case "end":
            return groups.end(line, session)
    numbers = [_number(part) for part in fields]
    if None in numbers:
        raise ScriptFault(line, "BadNumber")
    return groups.take(line, session, _edit(word, numbers))


def _has_command(word: str, count: int) -> bool:
    if word in ("begin", "end"):
        return count == 0
    if word == "ask":
        return count in (1, 2)
    if word == "rule":
        return count >= 1
    return word in EDITS and count == len(EDITS[word]._fields)


def _edit(word: str, numbers: Sequence[int]) -> Edit:
    return AddRule(numbers[0], tuple(numbers[1:])) if word == "rule" else EDITS[word](*numbers)


def _ask(line: int, fields: Sequence[str]) -> Ask:
    task = fields[0]
    if task not in TASKS:
        raise ScriptFault(line, "BadTask")
    query = _number(fields[1]) if len(fields) == 2 else None
    if len(fields) == 2 and query is None:
        raise ScriptFault(line, "BadNumber")
    if (query is None) == task.startswith("D"):
        raise ScriptFault(line, "BadQuery")
    return Ask(task, query)


class _Place(NamedTuple):
    session: int
    place: int


CERTIFICATE_HEAD = re.compile("# session ([0-9]+) reply ([0-9]+) front [0-9]+")


def _certificates_of(text: str) -> dict[_Place, str]:
    """The certificate of each answer, by the session and the place of its command."""
    shown: dict[_Place, list[str]] = {}
    lines: list[str] = []
    for line in text.splitlines():
        head = CERTIFICATE_HEAD.fullmatch(line)
        if head is None:
            lines.append(line)
        else:
            lines = shown.setdefault(_Place(int(head[1]), int(head[2])), [])
    return {place: "\n".join(lines) + "\n" for place, lines in shown.items()}


def _transcript_of(script: Script, output: str, shown: Mapping[_Place, str]) -> Transcript:
    """The records in a transcript's text. Raises ValueError, LookupError or TypeError where it isn't of the script."""
    told, _, edits = output.partition("history\n")
    replies: list[Reply] = []
    for part in re.split("^session ", told, flags=re.MULTILINE)[1:]:
        session = int(part.split("\n")[0])
        commands = [line.command for line in script.lines if line.session == session]
        pieces = re.split("^at ", part, flags=re.MULTILINE)[1:]
        for place, (command, piece) in enumerate(zip(commands, pieces, strict=True), start=1):
            front, *lines = piece.splitlines()
            outcome = _outcome_of(lines, shown.get(_Place(session, place)))
            replies.append(Reply(session, place, command, int(front), outcome))
    return Transcript(tuple(replies), tuple(_entries_of(edits.splitlines())))


def _entries_of(lines: Iterable[str]) -> Iterator[Entry]:
    """The entries of a history: an edit by itself, or those between `begin` and `end`."""
    group: Optional[list[Edit]] = None
    for line in lines:
        session, word, *numbers = line.split(" ")
        if word == "begin":
            group = []
        elif word == "end":
            yield Entry(int(session), tuple(group))
            group = None
        else:
            edit = _edit(word, [int(number) for number in numbers])
            if group is None:
                yield Entry(int(session), (edit,))
            else:
                group.append(edit)


def _outcome_of(lines: Sequence[str], certificate: Optional[str]) -> Outcome:
    match lines[0].split(" "):
        case ["OK", *rules]:
            return Taken(tuple(int(number) for number in rules[1::2]))
        case ["REFUSED", name, *number, "edit", place]:
            return Refused(name, *map(int, number), edit=int(place))
        case ["REFUSED", name, *number]:
            return Refused(name, *map(int, number))
        case ["LIMIT", name]:
            return Limited(name)
        case ["UNKNOWN"]:
            return Unknown()
    return _answer_of(lines, certificate)
