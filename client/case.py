#!/usr/bin/env python3
"""Disputes with names in place of numbers, in a plain notation.

    python3 client/case.py CASE                  prints each rule and attack back in full sentences
    python3 client/case.py CASE -p DS-PR -q fault    asks a question, and answers in names
    python3 client/case.py CASE --lint           warns of what may have turned the case without a word

A line of a case is one of these, and says by its words of which kind the case is; empty lines and those that begin with
`#` are skipped:

    witness: The witness was abroad.       what a name stands for
    witness attacks fault, letter          an argument attacks others: a case of attacks
    assume given: The drug is given.       an assumption; from here on: a case of rules
    known record: There is a record.       a statement that holds without more
    unsafe against given                   a statement that speaks against an assumption, which may have several
    unsafe if record, interaction          a statement follows where others hold

A name is a letter and then letters, digits, `-` and `_`, and none of the words above. Names get numbers in the order in
which they are first mentioned, so a line put in above gives others to those below it.

    >>> case = Case.from_text("a: Yes.\\nb: No.\\na attacks b\\n")
    >>> case.framework.attacks, case.name(2), case.number("b")
    ((Attack(attacker=1, target=2),), 'b', 2)
    >>> case.solve("SE-GR").lines
    ('a',)
"""
from __future__ import annotations

import argparse
import re
import sys
from collections.abc import Iterable, Iterator, Mapping, Sequence
from dataclasses import dataclass, replace
from difflib import get_close_matches
from functools import cached_property
from pathlib import Path
from typing import NamedTuple, Optional, Union

import burgaouez
import case_lint
from burgaouez import Answer, Framework, FrameworkFault, Kind, No, Numbers, Rule, Sets, Unknown, Yes
from case_text import (
    NAME,
    RESERVED,
    Assumes,
    Attacks,
    CaseError,
    CaseFault,
    CaseLines,
    Concludes,
    FaultName,
    Opposes,
    Statement,
    names_in,
    normal,
    read_case,
    suggestion,
    text_of,
)


class UnknownName(burgaouez.QueryFault):
    """A question has a name that the case doesn't have; `near` are those that look like it."""

    def __init__(self, name: str, near: Sequence[str]):
        super().__init__(f"the case has no name {name}{suggestion(near)}")
        self.name = name
        self.near = tuple(near)


# Cases


@dataclass(frozen=True)
class Told:
    """An answer in names: the program's answer, and its lines for a person."""

    answer: Answer
    lines: tuple[str, ...]


@dataclass(frozen=True)
class Case:
    """A framework in which each number has a name of its own. `statements` are the lines that it was read from; there
    are none where it was made of a framework."""

    framework: Framework
    statements: tuple[Statement, ...] = ()

    @cached_property
    def _numbers(self) -> Mapping[str, int]:
        return {name: number for number, name in self.framework.names.items()}

    @classmethod
    def from_text(cls, text: str) -> Case:
        """The case in a text of the notation. Raises CaseError with all faults, where there are any.

        >>> Case.from_text("a atacks b")
        Traceback (most recent call last):
        ...
        case_text.CaseError: line 1 BadLine: the line has none of the notation's words; is attacks meant?
        """
        lines = read_case(text)
        return cls(_framework(lines), lines.statements)

    @classmethod
    def of_framework(cls, framework: Framework) -> Case:
        """The case of a framework. A number without a name of its own, or with one that is a word of the notation, gets
        one: `a3` for an argument, `s3` for a statement.

        >>> Case.of_framework(Framework.of_attacks([(1, 2)], names={1: "claim"})).text()
        'claim:\\na2:\\n\\nclaim attacks a2\\n'
        """
        owners = {name: number for number, name in reversed(framework.names.items()) if name not in RESERVED}
        names = {number: name for name, number in owners.items()}
        taken = set(owners)
        letter = "a" if framework.kind is Kind.ATTACKS else "s"
        for number in range(1, framework.size + 1):
            if number not in names:
                names[number] = _free_name(f"{letter}{number}", taken)
                taken.add(names[number])
        return cls(replace(framework, names=dict(sorted(names.items()))))

    @classmethod
    def from_file(cls, path: Union[str, Path]) -> Case:
        """The case of a file in the notation, or of a framework's file. Raises CaseError, FrameworkFault, OSError."""
        text = Path(path).read_bytes().decode("utf-8", "surrogateescape")
        lines = [line.split() for line in text.split("\n")]
        first = next((line for line in lines if line and not line[0].startswith("#")), [])
        if first[:1] == ["p"]:
            return cls.of_framework(Framework.from_text(text))
        return cls.from_text(text)

    def name(self, number: int) -> str:
        """The name of a number."""
        return self.framework.names[number]

    def number(self, name: str) -> int:
        """The number of a name, which may be given as a number too. Raises UnknownName."""
        name = normal(name)
        if name in self._numbers:
            return self._numbers[name]
        if re.fullmatch("[0-9]{1,7}", name) and 1 <= int(name) <= self.framework.size:
            return int(name)
        raise UnknownName(name, get_close_matches(name, self._numbers, n=2))

    def sentence(self, number: int) -> str:
        """What a number says, in quotes; its name where it has no text."""
        text = self.framework.texts.get(number, "").removesuffix(".")
        return f"“{text}”" if text else self.name(number)

    def listed(self, numbers: Iterable[int]) -> str:
        """The names of numbers, in the order given."""
        return ", ".join(map(self.name, numbers))

    def text(self) -> str:
        """The case in the notation, which reads as this case again, with the same numbers. Raises ValueError for a
        framework of rules that has none, and no assumptions: its text would read as one of attacks."""
        return _text(self)

    def sentences(self) -> tuple[str, ...]:
        """Each attack, or each assumption, contrary and rule, as a full sentence."""
        framework = self.framework
        if framework.kind is Kind.ATTACKS:
            return tuple(
                f"{self.sentence(attack.attacker)} attacks {self._target(attack)}." for attack in framework.attacks
            )
        return (*map(self._assumption_sentence, framework.assumptions), *map(self._rule_sentence, framework.rules))

    def _target(self, attack: burgaouez.Attack) -> str:
        return "itself" if attack.attacker == attack.target else self.sentence(attack.target)

    def _assumption_sentence(self, number: int) -> str:
        contraries = [self.sentence(contrary) for contrary in self.framework.contraries.get(number, ())]
        against = " and ".join(contraries) or "nothing"
        if len(contraries) > 1:
            against = f"each of {against}"
        return f"{self.sentence(number)} may be assumed; {against} speaks against it."

    def _rule_sentence(self, rule: Rule) -> str:
        if not rule.body:
            return f"It is known: {self.sentence(rule.head)}."
        return f"{self.sentence(rule.head)} follows from {' and '.join(map(self.sentence, rule.body))}."

    def set_line(self, members: Numbers, framework: Optional[Framework] = None) -> str:
        """A set in names, with what follows from it in the framework given, or else in the case's.

        >>> Case.from_text("assume a\\nb if a").set_line((1,))
        'a, and so b'
        """
        more = [number for number in (framework or self.framework).closure(members) if number not in members]
        shown = self.listed(members) or "the empty set"
        return f"{shown}, and so {self.listed(more)}" if more else shown

    def told(self, answer: Answer, framework: Optional[Framework] = None) -> tuple[str, ...]:
        """The lines that tell an answer in names; `framework` is that of the answer where it isn't the case's."""
        match answer:
            case Sets(sets):
                return tuple(self.set_line(one, framework) for one in sets)
            case Yes(witness) | No(witness):
                return (answer.verdict, *(() if witness is None else (self.set_line(witness, framework),)))
        return ("UNKNOWN",)

    def solve(self, task: str, query: Optional[str] = None, budget: Optional[int] = None, **options) -> Told:
        """Asks a question in names. The rest, and what is raised, is as of `burgaouez.solve`, and UnknownName."""
        number = None if query is None else self.number(query)
        answer = burgaouez.solve(self.framework, task, number, budget, **options)
        return Told(answer, self.told(answer))

    def script(self, text: str) -> burgaouez.Script:
        """The script in a text in which names may stand for numbers. Raises CaseError for a name that isn't there, and
        ScriptFault.

        >>> Case.from_text("assume a\\nb if a").script("1 ask DC-PR b").text()
        '1 ask DC-PR 2\\n'
        """
        lines, faults = [], []
        for number, line in enumerate(text.split("\n"), start=1):
            try:
                lines.append(line if line.strip().startswith("#") else self._numbered(line))
            except UnknownName as fault:
                faults.append(CaseFault(number, FaultName.UNKNOWN_NAME, str(fault)))
        if faults:
            raise CaseError(faults)
        return burgaouez.Script.from_text("\n".join(lines))

    def _numbered(self, line: str) -> str:
        fields = line.split()
        kept = 3 if fields[1:2] == ["ask"] else 2
        numbers = [str(self.number(part)) if NAME.fullmatch(normal(part)) else part for part in fields[kept:]]
        return " ".join([*fields[:kept], *numbers])

    def told_command(self, command: burgaouez.Command) -> str:
        """A command of a script in names."""
        match command:
            case burgaouez.Group(edits):
                return "; ".join(["begin", *map(self.told_command, edits), "end"])
            case burgaouez.Ask(task, query):
                return f"ask {task}" if query is None else f"ask {task} {self._name_or_number(query)}"
            case burgaouez.DropRule(rule):
                return f"norule {rule}"
            case burgaouez.AddRule(head, body):
                return " ".join(["rule", *map(self._name_or_number, (head, *body))])
        return " ".join([burgaouez.COMMAND_WORDS[type(command)], *map(self._name_or_number, command)])

    def _name_or_number(self, number: int) -> str:
        return self.framework.names.get(number, str(number))

    def told_reply(self, reply: burgaouez.Reply, transcript: burgaouez.Transcript) -> tuple[str, ...]:
        """A reply of a transcript in names: what was said, and the lines of what came back."""
        said = f"session {reply.session}, at {reply.at}: {self.told_command(reply.command)}"
        match reply.outcome:
            case burgaouez.Taken(rules):
                return (said, " ".join(["OK", *(f"rule {rule}" for rule in rules)]))
            case burgaouez.Refused(name, number, edit):
                told = "" if number is None else f" {self._name_or_number(number)}"
                return (said, f"REFUSED {name}{told}" + ("" if edit is None else f" edit {edit}"))
            case burgaouez.Limited(name):
                return (said, f"LIMIT {name}")
        if self.framework.kind is Kind.ATTACKS:
            return (said, *self.told(reply.outcome))
        return (said, *self.told(reply.outcome, transcript.framework_at(self.framework, reply.at)))


def _free_name(wanted: str, taken: set[str]) -> str:
    while wanted in taken:
        wanted += "-"
    return wanted


def _framework(lines: CaseLines) -> Framework:
    kind, statements, numbers = lines
    names = {number: name for name, number in numbers.items()}
    texts = {numbers[names_in(one)[0]]: text_of(one) for one in statements if text_of(one)}
    if kind is Kind.ATTACKS:
        attacks = [
            (numbers[one.attacker], numbers[target])
            for one in statements
            if isinstance(one, Attacks)
            for target in one.targets
        ]
        return Framework.of_attacks(attacks, len(numbers), texts, names)
    contraries: dict[int, list[int]] = {}
    for one in statements:
        if isinstance(one, Opposes):
            contraries.setdefault(numbers[one.assumption], []).append(numbers[one.contrary])
    return Framework.of_rules(
        [numbers[one.name] for one in statements if isinstance(one, Assumes)],
        contraries,
        [
            (numbers[one.head], [numbers[name] for name in one.body])
            for one in statements
            if isinstance(one, Concludes)
        ],
        len(numbers),
        texts,
        names,
    )


def _text(case: Case) -> str:
    framework = case.framework
    if framework.kind is Kind.RULES and not framework.assumptions and not framework.rules:
        raise ValueError("the notation has no case of rules without rules and assumptions")
    assumed = set(framework.assumptions)
    first = [
        f"{'assume ' if number in assumed else ''}{case.name(number)}: {framework.texts.get(number, '')}".rstrip()
        for number in range(1, framework.size + 1)
    ]
    then: list[str] = []
    last = None
    for attacker, target in framework.attacks:
        if attacker == last:
            then[-1] += f", {case.name(target)}"
        else:
            then.append(f"{case.name(attacker)} attacks {case.name(target)}")
        last = attacker
    then += [f"{case.name(contrary)} against {case.name(number)}" for number, contrary in framework.contrary_pairs]
    then += [
        f"{case.name(rule.head)} if {case.listed(rule.body)}" if rule.body else f"known {case.name(rule.head)}"
        for rule in framework.rules
    ]
    return "\n".join([*first, "", *then]) + "\n" if then else "\n".join(first) + "\n"


# The command


def _words() -> argparse.ArgumentParser:
    words = argparse.ArgumentParser(prog="case.py", description="Asks about a dispute that is written in names.")
    words.add_argument("case", help="a file in the notation, or a framework's file")
    words.add_argument("-p", dest="task", choices=burgaouez.TASKS, metavar="TASK", help="a question, such as DS-PR")
    words.add_argument("-q", dest="query", metavar="NAME", help="the name that DC and DS ask about")
    words.add_argument("-b", dest="budget", type=int, metavar="UNITS", help="how many clauses the search may learn")
    words.add_argument("-t", dest="seconds", type=float, metavar="SECONDS", help="how long the program may run")
    words.add_argument("-c", dest="certificate", metavar="FILE", help="a file for the certificate of the answer")
    words.add_argument("-s", dest="script", metavar="SCRIPT", help="a live script, numbers or names")
    words.add_argument("--lint", action="store_true", help="warn of what may have turned the case")
    words.add_argument("--framework", action="store_true", help="print the framework's file, with names as comments")
    words.add_argument("--case", action="store_true", dest="notation", help="print the case in the notation")
    return words


class _Outcome(NamedTuple):
    """What the command prints, and its status."""

    lines: Sequence[str]
    status: int


def _ask(case: Case, given: argparse.Namespace) -> _Outcome:
    told = case.solve(given.task, given.query, given.budget, seconds=given.seconds)
    if isinstance(told.answer, Unknown):
        return _Outcome(told.lines, 6)
    if given.certificate:
        Path(given.certificate).write_text(told.answer.certificate, encoding="ascii")
    return _Outcome(told.lines, 0)


def _live(case: Case, given: argparse.Namespace) -> Iterator[str]:
    script = case.script(Path(given.script).read_text(encoding="utf-8", errors="surrogateescape"))
    transcript = script.run(case.framework, given.budget, certify=False, seconds=given.seconds)
    for reply in transcript.replies:
        said, *lines = case.told_reply(reply, transcript)
        yield said
        yield from ("    " + line for line in lines)


def _lint(case: Case) -> _Outcome:
    found = case_lint.warnings_of(case)
    return _Outcome([str(one) for one in found], 0 if all(one.is_remark for one in found) else 1)


def _done(case: Case, given: argparse.Namespace) -> _Outcome:
    if given.lint:
        return _lint(case)
    if given.framework:
        return _Outcome(case.framework.text().splitlines(), 0)
    if given.notation:
        return _Outcome(case.text().splitlines(), 0)
    if given.script:
        return _Outcome(list(_live(case, given)), 0)
    return _ask(case, given) if given.task else _Outcome(case.sentences(), 0)


def main(words: Optional[Sequence[str]] = None) -> int:
    """The command; returns its status: 0 done, 1 for warnings, 2 for faults of the case or its question, 3 for a file
    that can't be read, 6 for UNKNOWN, and 7 for another ending without an answer."""
    given = _words().parse_args(words)
    try:
        lines, status = _done(Case.from_file(given.case), given)
    except (CaseError, FrameworkFault, burgaouez.QueryFault, burgaouez.ScriptFault, burgaouez.Usage) as fault:
        print(fault, file=sys.stderr)
        return 2
    except OSError as fault:
        print(fault, file=sys.stderr)
        return 3
    except burgaouez.ArgueError as fault:
        print(f"{type(fault).__name__}: {fault}", file=sys.stderr)
        return 7
    for line in lines:
        print(line)
    return status


if __name__ == "__main__":
    sys.stdout.reconfigure(errors="replace")
    sys.exit(main())
