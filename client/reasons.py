"""Tells the reasons of an answer in plain words.

    python3 client/reasons.py -p DS-PR -a 4 -f examples/inheritance.af
    python3 client/reasons.py -p EE-PR -f examples/hearing.af --page hearing.html

The reasons are those of the answer's certificate, or of a shorter one: nothing is told that `argue check` hasn't
accepted.

    >>> from burgaouez import Framework
    >>> print(reasons(Framework.of_attacks([(1, 2), (2, 3)]), "DC-PR", 2).answer_text)
    No: no position that defends itself holds 2.
"""
from __future__ import annotations

import argparse
import os
import sys
import textwrap
from dataclasses import dataclass, field, replace
from typing import Iterator, Optional, Sequence, Union

from burgaouez import (
    Accepted, Answer, ArgueError, Framework, No, Numbers, Sets, Unknown, Yes, read_answer, check, solve,
)
from case import Case
from certificate import MODES, Certificate, Claim, Step, View, claims_of, read_certificate
from narration import Narrator, Sentence, name, names_of, plain, sentence
from records import Fact, Refutation, is_inner, read_refutation, walk
from search import SearchStopped, shorter_steps
from words import POSITIONS
from standing import MOST_MEMBERS, Standing, StandingTeller, common_part, standings

# Longer reasons are told by a summary.
MOST_SENTENCES = 40
# More members than this aren't named in the answer itself.
MOST_NAMED = 12
# Larger frameworks have no shorter proof searched.
MOST_SEARCHED = 150

SEMANTICS = {
    "CO": ("complete", "A complete set is a position without conflict that holds just what it defends."),
    "GR": ("grounded", "The grounded set holds what stands without any choice, and nothing else."),
    "PR": ("preferred", "A preferred set is a position without conflict that defends itself and can't be made larger."),
    "ST": ("stable", "A stable set is a position without conflict that attacks all outside of it. There may be none."),
    "SST": ("semi-stable", "A semi-stable set defends itself and leaves as little as can be without a verdict."),
    "ID": ("ideal", "The ideal set is the largest position that defends itself and lies within every preferred set."),
    "STG": (
        "stage",
        "A stage set is a position without conflict that leaves as little as can be without a verdict; it needn't defend "
        "itself.",
    ),
}
CHECKED = (
    "Checked by `argue check`: the answer follows from the framework as it is written. That says nothing of whether "
    "what is written is true, or whether something was left out."
)

# Why it is enough that the grounded set attacks, or accepts, what is asked about.
BEYOND_DOUBT = {
    True: "What stands without any choice is in every complete set, and so in every preferred and stable one.",
    False: "What stands without any choice is in every complete set, and each position that defends itself can be "
    "widened to a complete set; so none holds what it attacks.",
}


class NotAccepted(ArgueError):
    """`argue check` doesn't take the certificate for this answer, so there are no reasons to tell."""


class NoAnswer(ArgueError):
    """The program spent its budget without an answer."""


@dataclass
class Section:
    """A heading with its sentences. Folded ones stand back behind a stronger reason or a summary."""

    heading: str
    intro: str = ""
    sentences: list[Sentence] = field(default_factory=list)
    folded: bool = False
    summary: str = ""
    rests_on: list[int] = field(default_factory=list)

    def all(self) -> Iterator[Sentence]:
        """All sentences, those of cases too."""
        for one in self.sentences:
            yield from one.all()


@dataclass
class Reasons:
    """The reasons of one answer: texts with marks for names, and the records that they were made of.

    `certificate` is the one that was told, which `argue check` has accepted; `sets` are those that the text numbers
    from 1. """

    framework: Framework
    task: str
    query: Optional[int]
    answer: Union[Yes, No, Sets]
    certificate: Certificate
    question: str
    gloss: str
    said: str
    sets: list[Numbers]
    sections: list[Section]
    refutations: list[Refutation]
    grounded: Optional[Numbers] = None

    def fill(self, text: str) -> str:
        """A text with names in the place of its marks."""
        return plain(text, lambda n: self.framework.names.get(n, str(n)), self.set_label)

    def set_label(self, number: int) -> str:
        """A set's name in the text."""
        return f"set {number}" if len(self.sets) > 1 else "the set"

    @property
    def answer_text(self) -> str:
        """The answer in one sentence."""
        return self.fill(self.said)

    def text(self, full: bool = False, width: int = 100) -> str:
        """The reasons as plain text; `full` tells what a summary or a stronger reason stands for."""
        return "\n".join(_text_lines(self, full, width)) + "\n"


# Finding what is to be told


def reasons(
    framework: Framework,
    task: str,
    query: Optional[int] = None,
    answer: Optional[Answer] = None,
    certificate: Optional[str] = None,
    *,
    program: Union[str, os.PathLike, None] = None,
    seconds: Optional[float] = None,
) -> Reasons:
    """The reasons of an answer, which is asked for where it isn't given.

    Raises NotAccepted where `argue check` rejects the answer with its certificate, CertificateFault where it can't be
    read, NoAnswer where the budget was spent, and what `burgaouez.solve` raises. """
    run = {"program": program, "seconds": seconds}
    if answer is None:
        answer = solve(framework, task, query, **run)
    if isinstance(answer, Unknown):
        raise NoAnswer("the budget was spent")
    shown = certificate if certificate is not None else answer.certificate
    verdict = check(framework, task, answer, query, shown, **run)
    if not isinstance(verdict, Accepted):
        raise NotAccepted(f"argue check rejects the certificate: {verdict.cause} {verdict.refutation} {verdict.step}")
    view = View(framework)
    read = read_certificate(shown)
    claims = claims_of(view, task, query, answer, read.sets)
    short = shorter(view, claims, read)
    if short != read and not isinstance(check(framework, task, answer, query, short.text(), **run), Accepted):
        short = read
    return _Telling(view, task, query, answer, short, claims, run).whole()


def shorter(view: View, claims: Sequence[Claim], read: Certificate) -> Certificate:
    """The certificate with each refutation exchanged for a shorter one, where a search finds one."""
    if len(view.members) > MOST_SEARCHED or view.framework.size > 3 * MOST_SEARCHED:
        return read
    return Certificate(read.sets, [_shorter(view, claim, steps) for claim, steps in zip(claims, read.refutations)])


def _shorter(view: View, claim: Claim, steps: list[Step]) -> list[Step]:
    try:
        found = shorter_steps(view, claim, steps)
    except SearchStopped:
        return steps
    return found if _length(view, claim, found) <= 2 + _length(view, claim, steps) * 1.2 else steps


def _length(view: View, claim: Claim, steps: list[Step]) -> int:
    """How many sentences a refutation takes; one on an inner link of a chain, which nobody reads with ease, counts
    thrice."""
    read = read_refutation(view, claim, steps)
    told = list(walk([*read.items, *(item for lemma in read.lemmas for item in lemma.items)]))
    return len(told) + 2 * sum(1 for record in told if record.conclusion is not None and is_inner(record.conclusion))


def apart(sets: Sequence[Numbers], number: int) -> str:
    """What sets a set apart: `, with` a member that no other has, or two; nothing where there are no such."""
    others = [set(one) for n, one in enumerate(sets, 1) if n != number]
    members = sets[number - 1]
    for one in members:
        if not any(one in other for other in others):
            return f", with {name(one)}"
    for one in members:
        for two in members:
            if one < two and not any(one in other and two in other for other in others):
                return f", with {name(one)} and {name(two)}"
    return ""


class _Telling:
    """The making of one answer's reasons."""

    def __init__(self, view: View, task: str, query, answer, certificate: Certificate, claims: list[Claim], run: dict):
        self.view, self.task, self.query, self.answer = view, task, query, answer
        self.problem, self.semantics = task.split("-")
        self.certificate, self.claims, self.run = certificate, claims, run
        self.narrator = Narrator(view)
        self.teller = StandingTeller(view)
        self.sections: list[Section] = []
        self.grounded: Optional[Numbers] = None
        self.holds = "assumes" if view.is_rules else "holds"

    def whole(self) -> Reasons:
        """The reasons, in the order: what is stronger, the sets, what is beyond doubt, why there is no other."""
        framework = self.view.framework
        grounded = self._stronger()
        decided = bool(self.sections)
        sets = self._sets() or ([grounded] if grounded is not None and not decided else [])
        self._tell_sets(sets, decided)
        refutations = [
            read_refutation(self.view, claim, steps) for claim, steps in zip(self.claims, self.certificate.refutations)
        ]
        self._tell_refutations(refutations, decided)
        adjective, gloss = SEMANTICS[self.semantics]
        return Reasons(
            framework,
            self.task,
            self.query,
            self.answer,
            self.certificate,
            self._question(adjective),
            gloss,
            self._answer(adjective),
            sets,
            self.sections,
            refutations,
            self.grounded,
        )

    # Question and answer

    def _accepted(self) -> str:
        if not self.view.is_rules:
            return "held"
        return "assumed" if self.query in self.view.assumed else "derived"

    def _verb(self) -> str:
        return {"held": "holds", "assumed": "assumes", "derived": "derives"}[self._accepted()]

    def _question(self, adjective: str) -> str:
        if self.problem == "SE":
            return f"What does {'the' if self.semantics in ('GR', 'ID') else 'a'} {adjective} set hold?"
        if self.problem == "EE":
            return f"Which are the {adjective} sets?"
        if self.semantics in ("GR", "ID"):
            return f"Is {name(self.query)} {self._accepted()} by the {adjective} set?"
        some = "some" if self.problem == "DC" else "every"
        return f"Is {name(self.query)} {self._accepted()} by {some} {adjective} set?"

    def _answer(self, adjective: str) -> str:
        verb = self._verb()
        match self.problem, self.answer:
            case "SE", Sets():
                return f"It {self._held_words(self.answer.sets[0])}."
            case "EE", Sets():
                return self._count_words(self.answer.sets)
            case "SE" | "EE", _:
                return "There is none: no position without conflict has a verdict on everything."
            case _ if self.semantics in ("GR", "ID"):
                if isinstance(self.answer, Yes):
                    return f"Yes: it {verb} {name(self.query)}."
                return f"No: it doesn't {verb[:-1]} {name(self.query)}."
            case "DC", Yes():
                return f"Yes: here is one that {verb} {name(self.query)}."
            case "DC", No():
                position = f"{adjective} set" if self.semantics in ("ST", "SST", "STG") else "position that defends itself"
                return f"No: no {position} {verb} {name(self.query)}."
            case "DS", Yes() if self.semantics == "ST" and self._has_no_stable_set():
                return f"Yes, for want of any: there is no stable set, so none is without {name(self.query)}."
            case "DS", Yes():
                return f"Yes: every {adjective} set {verb} {name(self.query)}."
        return f"No: here is one that doesn't {verb[:-1]} {name(self.query)}."

    def _has_no_stable_set(self) -> bool:
        found = solve(self.view.framework, "SE-ST", **self.run)
        accepted = isinstance(check(self.view.framework, "SE-ST", found, **self.run), Accepted)
        return isinstance(found, No) and accepted

    def _count_words(self, sets: Sequence[Numbers]) -> str:
        """How many sets there are, with what sets each apart where they are few."""
        if len(sets) == 1:
            return f"There is one: it {self._held_words(sets[0])}."
        count = {2: "two", 3: "three", 4: "four", 5: "five", 6: "six"}.get(len(sets), str(len(sets)))
        if len(sets) > 6:
            return f"There are {count}."
        labels = [apart(sets, number).removeprefix(", ") for number in range(1, len(sets) + 1)]
        said = [f"set {number}" + (f", {label}" if label else "") for number, label in enumerate(labels, 1)]
        return f"There are {count}: {'; '.join(said)}."

    def _held_words(self, members: Numbers) -> str:
        if len(members) > MOST_NAMED:
            return f"{self.holds} {len(members)} of {len(self.view.members)}"
        return f"{self.holds} {names_of(members) or 'nothing'}"

    # Sets

    def _sets(self) -> list[Numbers]:
        """The sets that the text numbers, in the order that the side clauses number them in."""
        if self.certificate.sets:
            return list(self.certificate.sets)
        if isinstance(self.answer, Sets):
            return list(self.answer.sets)
        return [] if self.answer.witness is None else [self.answer.witness]

    def _grounded(self) -> Numbers:
        """The grounded set, as the program answers and its check accepts."""
        found = solve(self.view.framework, "SE-GR", **self.run)
        if not isinstance(check(self.view.framework, "SE-GR", found, **self.run), Accepted):
            raise NotAccepted("argue check rejects the grounded set")
        self.grounded = found.sets[0]
        return self.grounded

    def _stronger(self) -> Optional[Numbers]:
        """Tells how the grounded set decides the query, where it does; gives that set then, or where the task is
        about it."""
        about_it = self.semantics == "GR" or self.task == "DS-CO"
        if self.query is None or (isinstance(self.answer, Yes) == (self.problem == "DC") and not about_it):
            return None
        if self.problem == "DC" and not self.view.is_rules and self.query in self.view.attackers[self.query]:
            fact = Standing("itself", (self.query,), (self.query,), (_attack(self.query, self.query),), ())
            self._tell("A short reason", "Nothing that attacks itself is ever held.", [fact])
            return ()
        if self.semantics == "STG":
            return None
        grounded = self._grounded()
        positive = self.query in self.view.closure(grounded)
        fallen = self.query in self.view.attacked(grounded)
        if positive or fallen:
            self._tell("Beyond doubt already", BEYOND_DOUBT[positive], self._chain_to(grounded, positive))
            return grounded
        return grounded if about_it else None

    def _chain_to(self, grounded: Numbers, positive: bool) -> list[Standing]:
        """What of the grounded set the query needs."""
        found = standings(self.view, grounded)
        goal = {self.query}
        kept = []
        for one in reversed(found):
            if one.kind in ("falls", "attacked"):
                wanted = not positive and self.query in one.about
                if wanted and one.kind == "falls":
                    one = replace(one, about=(self.query,), facts=(_attack(one.by[0], self.query),))
            else:
                wanted = goal.intersection(one.about)
            if wanted:
                goal.update(one.by)
                kept.insert(0, one)
        return kept

    def _tell(self, heading: str, intro: str, found: Sequence[Standing], folded: bool = False) -> None:
        if found:
            sentences = self.teller.told(found, self.narrator.number)
            self.narrator.number += len(sentences)
            self.sections.append(Section(heading, intro, sentences, folded))

    def _tell_sets(self, sets: list[Numbers], folded: bool) -> None:
        opens = self.semantics in ("CO", "GR") or self.task == "DS-CO"
        common: Numbers = ()
        if len(sets) > 1 and not self.view.is_rules:
            common = common_part(self.view, sets)
            if len(common) <= MOST_MEMBERS:
                self._tell("In every set", f"Each set holds {names_of(common)}.", standings(self.view, common), folded)
        for number, members in enumerate(sets, 1):
            heading = f"Set {number}{apart(sets, number)}" if len(sets) > 1 else self._heading_of_one()
            own = [a for a in members if a not in common] if common else members
            intro = f"It {self.holds} {names_of(own) or 'nothing'}."
            if common:
                intro = f"Beside what each set holds, it {self.holds} {names_of(own) or 'nothing'}."
            small = len(members) <= MOST_MEMBERS and len(self.view.members) <= 2 * MOST_MEMBERS
            found = standings(self.view, members, common, opens) if small else []
            sentences = self.teller.told(found, self.narrator.number)
            self.narrator.number += len(sentences)
            self.sections.append(Section(heading, intro, sentences, folded))

    def _heading_of_one(self) -> str:
        about_it = self.semantics == "GR" or (self.task == "DS-CO" and isinstance(self.answer, Yes))
        return "The grounded set" if about_it else "The set"

    # Refutations

    def _tell_refutations(self, refutations: list[Refutation], folded: bool) -> None:
        ground = self.narrator.common_ground(refutations)
        if ground:
            mode = next(literal.atom[0] for literal in self.claims[0].goals if literal.atom[0] in MODES)
            self.sections.append(Section("Beyond doubt", f"This is so of every {POSITIONS[mode][2:]}.", ground, folded))
        for refutation in refutations:
            supposed = self.narrator.supposition(refutation.claim, refutation.supposed, refutation.sides)
            intro = f"{self._before(refutation)}{supposed}."
            section = Section(self._heading(refutation.claim), intro, self.narrator.refutation(refutation), folded)
            self._summarize(section, refutation)
            self.sections.append(section)

    def _before(self, refutation: Refutation) -> str:
        """Why it is enough that no position lies outside of the sets shown."""
        if self.semantics != "PR" or refutation.claim.about or not refutation.sides:
            return ""
        holds = f", and {self._verb()} {name(self.query)}" if self.query is not None else ""
        return f"A preferred set that lies within one of the sets shown is that set{holds}. "

    def _heading(self, claim: Claim) -> str:
        match claim.about:
            case "largest":
                return "Why nothing can be added"
            case "widest":
                return "Why no position has more verdicts"
            case "unattacked":
                return "Why no position attacks the ideal set"
            case "ideal":
                return "Why the ideal set can't be larger"
            case "wider":
                return "Why no other position has more verdicts"
            case "same":
                return "Why no other position has the same verdicts"
        if self.problem == "EE" and isinstance(self.answer, Sets):
            return "Why there is no other"
        return "Why"

    def _summarize(self, section: Section, refutation: Refutation) -> None:
        count = sum(1 for _ in section.all())
        if count <= MOST_SENTENCES or section.folded:
            return
        section.rests_on = sorted({n for one in section.all() for n in one.arguments})
        cases = sum(1 for one in section.all() if one.case is not None)
        section.folded = True
        section.summary = (
            f"These reasons take {count} sentences, with {cases} {'case' if cases == 1 else 'cases'}. "
            f"They rest on {len(section.rests_on)} of {self.view.framework.size}: {names_of(section.rests_on)}."
        )


def _attack(b: int, a: int) -> Fact:
    return Fact("attacks", (b, a))


# Text


def _text_lines(told: Reasons, full: bool, width: int) -> Iterator[str]:
    asked = f"Question: {told.fill(sentence(told.question))} ({' '.join(_words(told))})"
    for said in (asked, f"Answer: {told.answer_text}", told.gloss, CHECKED):
        yield from _wrapped(said, width)
    for section in told.sections:
        if section.folded and not section.summary and not full:
            continue
        yield ""
        yield told.fill(section.heading).upper()
        if section.summary and not full:
            yield from _wrapped(told.fill(section.summary) + " `--full` tells them.", width)
            continue
        yield from _wrapped(told.fill(section.intro), width)
        for one in section.sentences:
            yield from _sentence_lines(told, one, 0, width)
    left = sum(1 for section in told.sections if section.folded and not section.summary for _ in section.all())
    if left and not full:
        more = f"{left} more {'sentence' if left == 1 else 'sentences'}"
        yield from ("", f"That is reason enough. `--full` tells {more}, of the certificate.")


def _wrapped(text: str, width: int, first: str = "") -> list[str]:
    """The lines of a text, behind its label."""
    indents = {"initial_indent": first, "subsequent_indent": " " * len(first)}
    return textwrap.wrap(text, width, break_on_hyphens=False, **indents)


def _words(told: Reasons) -> list[str]:
    return [told.task] if told.query is None else [told.task, str(told.query)]


def cited(numbers: Sequence[int]) -> str:
    """Paragraphs in brackets, three and more in a row as a span.

    >>> cited([1, 2, 3, 5])
    ' [1 to 3, 5]'
    """
    parts: list[list[int]] = []
    for number in numbers:
        if parts and number == parts[-1][-1] + 1:
            parts[-1].append(number)
        else:
            parts.append([number])
    said = [f"{one[0]} to {one[-1]}" if len(one) > 2 else ", ".join(map(str, one)) for one in parts]
    return f" [{', '.join(said)}]" if said else ""


def _sentence_lines(told: Reasons, one: Sentence, depth: int, width: int) -> Iterator[str]:
    indent = "   " * depth
    label = f"{indent}{one.number}. "
    words = told.fill(one.text) + cited(one.cites)
    yield from _wrapped(words, width, label)
    for item in one.items:
        yield from _sentence_lines(told, item, depth + 1, width)


# Words


def _parser() -> argparse.ArgumentParser:
    parser = argparse.ArgumentParser(prog="reasons.py", description="Tells the reasons of an answer in plain words.")
    parser.add_argument("-p", dest="task", required=True, help="the task, such as DS-PR")
    parser.add_argument("-f", dest="file", required=True, help="the file of the framework, or a .case with names")
    parser.add_argument("-a", dest="query", help="the number that DC and DS ask about; in a case its name serves too")
    parser.add_argument("-r", dest="answer", help="a file with the answer, where it isn't to be asked for")
    parser.add_argument("-c", dest="certificate", help="the file of that answer's certificate")
    parser.add_argument("--page", help="writes a page to this file, in place of the text")
    parser.add_argument("--seconds", type=float, help="how long each run of the program may take")
    parser.add_argument("--full", action="store_true", help="tells what a summary or a stronger reason stands for")
    return parser


def _given(words: argparse.Namespace):
    """The answer and certificate in files, if any are named."""
    if (words.answer is None) != (words.certificate is None):
        raise ValueError("-r and -c belong together")
    if words.answer is None:
        return None, None
    with open(words.answer, encoding="utf-8") as file:
        answer = read_answer(file.read())
    with open(words.certificate, encoding="utf-8") as file:
        return answer, file.read()


def _asked(words: argparse.Namespace) -> tuple[Framework, Optional[int]]:
    """The framework of the file, which may be a case with names, and the number that is asked about."""
    case = Case.from_file(words.file) if words.file.endswith(".case") else None
    framework = case.framework if case else Framework.from_file(words.file)
    if words.query is None:
        return framework, None
    if case:
        return framework, case.number(words.query)
    if not words.query.isdecimal():
        raise ValueError(f"-a asks about a number, and {words.query} is none")
    return framework, int(words.query)


def main(arguments: Optional[Sequence[str]] = None) -> int:
    """Runs the words; the status is 0, 1 where there are no reasons to tell, 2 for words that don't fit."""
    words = _parser().parse_args(arguments)
    try:
        framework, query = _asked(words)
        answer, certificate = _given(words)
        found = reasons(framework, words.task, query, answer, certificate, seconds=words.seconds)
        _write(found, words)
    except (ArgueError, OSError, ValueError) as error:
        print(f"reasons.py: {_told_error(error)}", file=sys.stderr)
        return 1
    return 0


def _told_error(error: Exception) -> str:
    if isinstance(error, OSError):
        return f"{error.filename}: {error.strerror}"
    return f"{type(error).__name__}: {error}"


def _write(found: Reasons, words: argparse.Namespace) -> None:
    if words.page is None:
        sys.stdout.write(found.text(words.full))
        return
    from page import page
    text = page(found)
    with open(words.page, "w", encoding="utf-8", errors="replace") as file:
        file.write(text)


if __name__ == "__main__":
    sys.exit(main())
