#!/usr/bin/env python3
"""Tests of burgaouez.py: `python3 -m unittest discover client`, with a built `argue`.

Expected values are worked out by hand, or come from by_definition.py, and never from the program. Statuses that aren't
easily brought about with the program itself come from stand-ins, which are scripts of a line or two."""
from __future__ import annotations

import doctest
import os
import subprocess
import sys
import tempfile
import time
import unittest
from pathlib import Path
from random import Random
from unittest import mock

import burgaouez
from burgaouez import Accepted, Attack, Framework, Kind, No, Rejected, Rule, Script, Sets, Unknown, Yes, check, solve
from by_definition import Definitions, drawn_attacks, drawn_rules

TOP = Path(__file__).resolve().parent.parent
EXAMPLES = TOP / "examples"


def setUpModule():
    built = os.environ.get("BURGAOUEZ_ARGUE") or (TOP / "out" / "argue").exists()
    if not built:
        raise unittest.SkipTest("the program isn't built: build it by ./argue, or set BURGAOUEZ_ARGUE")


def load_tests(loader, tests, pattern):
    tests.addTests(doctest.DocTestSuite(burgaouez))
    return tests


def stand_in(test: unittest.TestCase, *lines: str) -> str:
    """A program of these lines of shell, in place of `argue`."""
    folder = tempfile.TemporaryDirectory()
    test.addCleanup(folder.cleanup)
    path = Path(folder.name, "argue")
    path.write_text("\n".join(["#!/bin/sh", *lines]) + "\n", encoding="utf-8")
    path.chmod(0o755)
    return str(path)


RIVALS = Framework.of_attacks([(1, 2), (2, 1), (2, 3)])
THREE = Framework.of_attacks([(1, 2), (2, 3)])
DRUG = Framework.of_rules([1, 2], {1: 3, 2: 4}, [(3, [2]), (4, [1])])


class ReadingTest(unittest.TestCase):
    def test_attacks(self):
        comments = "# 1 alibi: She was abroad.\n#2: He saw it.\n"
        read = Framework.from_text(f"# a case\np af 3\n{comments}1 2\n\n1  2\n3\t3\r\n")
        self.assertEqual((read.kind, read.size), (Kind.ATTACKS, 3))
        self.assertEqual(read.attacks, (Attack(1, 2), Attack(3, 3)))
        self.assertEqual(read.texts, {1: "She was abroad.", 2: "He saw it."})
        self.assertEqual(read.names, {1: "alibi"})
        self.assertEqual((list(read.arguments), list(read.atoms), list(read.members)), ([1, 2, 3], [], [1, 2, 3]))

    def test_rules(self):
        read = Framework.from_file(EXAMPLES / "anticoagulant.aba")
        self.assertEqual((read.kind, read.size), (Kind.RULES, 14))
        self.assertEqual(read.assumptions, (1, 2, 3, 4))
        self.assertEqual(read.contraries, {1: (8,), 2: (9,), 3: (10,), 4: (11,)})
        self.assertEqual(read.rules[4:6], (Rule(5, 6, (3, 7)), Rule(6, 8, (6,))))
        self.assertEqual((list(read.arguments), len(read.atoms), read.members), ([], 14, (1, 2, 3, 4)))

    def test_several_contraries(self):
        read = Framework.from_text("p aba 4\nc 2 4\na 2\nc 1 4\na 1\nc 1 3\nc 1 2\nc 1 3\na 3\n")
        self.assertEqual(read.contraries, {1: (2, 3, 4), 2: (4,)})
        self.assertEqual(read.contrary_pairs, ((1, 2), (1, 3), (1, 4), (2, 4)))
        self.assertEqual(read.text(), "p aba 4\na 1\na 2\na 3\nc 1 2\nc 1 3\nc 1 4\nc 2 4\n")

    def test_too_many_contrary_lines(self):
        """A line that repeats another counts too, and a line's own fault is told before."""
        lines = "p aba 2\na 1\n" + 2 * "c 1 2\n"
        with mock.patch.object(burgaouez, "MOST_CONTRARY_LINES", 2):
            self.assertEqual(Framework.from_text(lines).contraries, {1: (2,)})
            for line, name in (("c 1 2", "TooManyLines"), ("c 2 1", "TooManyLines"), ("c 1 3", "OutOfRange")):
                with self.subTest(line), self.assertRaises(burgaouez.FrameworkFault) as caught:
                    Framework.from_text(lines + line)
                self.assertEqual((caught.exception.line, caught.exception.name), (5, name))

    def test_examples_have_their_sentences(self):
        hearing = Framework.from_file(EXAMPLES / "hearing.af")
        self.assertEqual(hearing.sentence(2), "The seller delivered on time.")
        self.assertEqual(sorted(hearing.texts), [1, 2, 3, 4, 5, 6, 7])

    def test_comments_that_tell_no_sentence(self):
        text = "p af 2\n# 3: no such argument\n# 1 the one: x\n# 0: x\n# 99999999999: x\n# 2: b\n# 2: c\n"
        read = Framework.from_text(text)
        self.assertEqual(read.texts, {2: "b"})
        self.assertEqual(read.sentence(1), "1")

    def test_a_name_is_given_once(self):
        read = Framework.from_text("p af 2\n# 1 same: a\n# 2 same: b\n")
        self.assertEqual((read.names, read.texts), ({1: "same"}, {1: "a", 2: "b"}))

    def test_faults_are_named_as_in_the_table(self):
        for text, line, name in (
            ("", 1, "NoHeader"),
            ("# nothing\n\n", 3, "NoHeader"),
            ("1 2\n", 1, "NoHeader"),
            ("p af x", 1, "BadHeader"),
            ("p cnf 3", 1, "BadHeader"),
            ("p af 1000001", 1, "OutOfRange"),
            ("p af 2\np af 2", 2, "SecondHeader"),
            ("p af 2\n1 2 1", 2, "BadLine"),
            ("p af 2\n1 x", 2, "BadNumber"),
            ("p af 2\n1 4294967296", 2, "BadNumber"),
            ("p af 2\n1 4294967295", 2, "OutOfRange"),
            ("p af 2\n1 3", 2, "OutOfRange"),
            ("p af 2\n1 \u0662", 2, "BadNumber"),
            ("p aba 2\nx 1", 2, "BadLine"),
            ("p aba 2\na 1\nr 1", 3, "NotFlat"),
            ("p aba 2\nr 1\na 1", 3, "NotFlat"),
            ("p aba 3\na 1\nc 1 0", 3, "OutOfRange"),
            ("p aba 3\na 1\nc 1 2 3", 3, "BadLine"),
            ("p aba 3\na 1\nc 1 2\nc 1 3\nr 1", 5, "NotFlat"),
            ("p aba 3\nc 1 2\nc 3 2\na 2", 2, "ContraryOfNonAssumption"),
            ("p aba 3\na 1\nc 1 2\nc 3 2\nc 1 3\nc 2 2", 4, "ContraryOfNonAssumption"),
        ):
            with self.subTest(text), self.assertRaises(burgaouez.FrameworkFault) as caught:
                Framework.from_text(text)
            self.assertEqual((caught.exception.line, caught.exception.name), (line, name), text)

    def test_reads_and_faults_as_the_program(self):
        choose = Random(3)
        parts = ["1", "2", "3"] * 5 + ["0", "4", "x", "a", "c", "r", "p", "af", "#", "007", "4294967296"]
        with tempfile.TemporaryDirectory() as folder:
            for _ in range(300):
                lines = [f"p {choose.choice(('af', 'aba'))} 3"]
                for _ in range(choose.randint(0, 4)):
                    fields = choose.choices(parts, k=choose.randint(0, 3))
                    lines.append(" ".join([choose.choice(("", "a", "c", "r")), *fields]))
                text = "\n".join(lines) + "\n"
                self.assertEqual(self.said(text), self.told(text, Path(folder, "f")), text)

    def said(self, text: str) -> str:
        try:
            Framework.from_text(text)
        except burgaouez.FrameworkFault as fault:
            return f"error: {fault}"
        return ""

    def told(self, text: str, path: Path) -> str:
        path.write_text(text, encoding="utf-8")
        words = [burgaouez.find_program(), "-p", "SE-GR", "-f", str(path)]
        line = subprocess.run(words, capture_output=True, text=True).stdout.strip()
        return line if line.startswith("error") else ""


class MakingTest(unittest.TestCase):
    def test_what_makes_no_framework(self):
        for name, make in (
            ("OutOfRange", lambda: Framework.of_attacks([(1, 3)], size=2)),
            ("OutOfRange", lambda: Framework.of_attacks([(0, 1)])),
            ("OutOfRange", lambda: Framework.of_attacks([], size=1_000_001)),
            ("OutOfRange", lambda: Framework.of_rules([1], {1: 5}, [], size=4)),
            ("OutOfRange", lambda: Framework.of_attacks([], size=1, texts={2: "Two."})),
            ("BadName", lambda: Framework.of_attacks([], size=1, names={1: "two words"})),
            ("NotFlat", lambda: Framework.of_rules([1], {}, [(1, [])])),
            ("ContraryOfNonAssumption", lambda: Framework.of_rules([1], {2: 1}, [])),
            ("OutOfRange", lambda: Framework.of_rules([1], {1: [2, 5]}, [], size=4)),
            ("OutOfRange", lambda: Framework.of_rules([1], {1: [0, 2]}, [])),
        ):
            with self.subTest(name), self.assertRaises(burgaouez.InvalidFramework) as caught:
                make()
            self.assertEqual(caught.exception.name, name)

    def test_numbers_of_contraries(self):
        made = Framework.of_rules([1, 2, 3, 4], {3: {5, 4}, 1: 6, 2: [], 4: (7, 5, 7)}, [])
        self.assertEqual((made.contraries, made.size), ({1: (6,), 3: (4, 5), 4: (5, 7)}, 7))

    def test_edits_of_contraries(self):
        now = Framework.of_rules([1, 2], {1: 3}, [], size=4)
        for edit, then in (
            (burgaouez.AddContrary(1, 2), {1: (2, 3)}),
            (burgaouez.AddContrary(2, 4), {1: (2, 3), 2: (4,)}),
            (burgaouez.DropContrary(1, 3), {1: (2,), 2: (4,)}),
            (burgaouez.DropContrary(1, 2), {2: (4,)}),
            (burgaouez.AddContrary(2, 1), {2: (1, 4)}),
            (burgaouez.SetContrary(2, 3), {2: (3,)}),
            (burgaouez.AddContrary(2, 2), {2: (2, 3)}),
            (burgaouez.DropAssumption(2), {}),
            (burgaouez.AddAssumption(2, 0), {}),
            (burgaouez.AddContrary(2, 1), {2: (1,)}),
            (burgaouez.SetContrary(2, 0), {}),
        ):
            now = now.edited(edit)
            self.assertEqual(now.contraries, then, edit)
        with self.assertRaises(burgaouez.InvalidFramework):
            now.edited(burgaouez.AddContrary(2, 0))

    def test_texts_with_line_ends_stay_comments(self):
        told = Framework.of_attacks([(1, 2)], texts={1: "one\n2 1\n", 2: "<b>two</b>"}, names={2: "zwölf-2"})
        read = Framework.from_text(told.text())
        self.assertEqual(read.attacks, ((1, 2),))
        self.assertEqual((read.texts, read.names), ({1: "one 2 1", 2: "<b>two</b>"}, {2: "zwölf-2"}))

    def test_round_trips(self):
        choose = Random(4)
        for _ in range(100):
            for framework in (drawn_attacks(choose), drawn_rules(choose)):
                self.assertEqual(Framework.from_text(framework.text()), framework)

    def test_closure(self):
        drug = Framework.from_file(EXAMPLES / "anticoagulant.aba")
        self.assertEqual(drug.closure([3]), (3, 5, 6, 7, 8, 9, 11, 12, 14))
        circle = Framework.of_rules([1], {}, [(2, [3]), (3, [2]), (4, [1, 1]), (5, [4, 2])], 5)
        self.assertEqual((circle.closure([]), circle.closure([1]), circle.closure([3])), ((), (1, 4), (2, 3)))
        self.assertEqual(DRUG.edited(burgaouez.DropRule(1)).edited(burgaouez.AddRule(3, (2, 2))).closure([2]), (2, 3))


class AnsweringTest(unittest.TestCase):
    """All tasks, on frameworks drawn at random, beside the definitions over all subsets."""

    def test_attacks(self):
        choose = Random(5)
        for _ in range(30):
            self.compare(drawn_attacks(choose), choose)

    def test_rules(self):
        choose = Random(6)
        for _ in range(30):
            self.compare(drawn_rules(choose), choose)

    def compare(self, framework: Framework, choose: Random):
        definitions = Definitions(framework)
        for task in framework.tasks:
            query = None
            if task.startswith("D"):
                if framework.size == 0:
                    continue
                query = choose.randint(1, framework.size)
            with self.subTest(framework=framework.text(), task=task, query=query):
                answer = solve(framework, task, query, seconds=60)
                self.is_right(definitions, task, query, answer)
                self.assertEqual(check(framework, task, answer, query, seconds=60), Accepted())

    def is_right(self, definitions: Definitions, task: str, query, answer):
        problem, semantics = task.split("-")
        extensions = definitions.extensions(semantics)
        if query is not None:
            self.assertEqual(isinstance(answer, Yes), definitions.is_answered(task, query))
            self.assertEqual(answer.witness is not None, isinstance(answer, Yes) == (problem == "DC"))
            if answer.witness is not None:
                self.assertIn(frozenset(answer.witness), extensions)
                self.assertEqual(definitions.accepts(frozenset(answer.witness), query), problem == "DC")
        elif not extensions:
            self.assertEqual(answer, No(certificate=answer.certificate))
        elif problem == "SE":
            self.assertIn(frozenset(answer.sets[0]), extensions)
            self.assertEqual(len(answer.sets), 1)
        else:
            self.assertEqual(list(answer.sets), sorted(tuple(sorted(one)) for one in extensions))

    def test_the_hearing(self):
        hearing = Framework.from_file(EXAMPLES / "hearing.af")
        self.assertEqual(solve(hearing, "SE-GR").sets, ((1, 4),))
        self.assertEqual(solve(hearing, "EE-PR").sets, ((1, 4, 5), (1, 4, 6)))
        self.assertEqual(solve(hearing, "DS-PR", 6).witness, (1, 4, 5))

    def test_no_stable_set(self):
        ring = Framework.of_attacks([(1, 2), (2, 3), (3, 1)])
        self.assertEqual(solve(ring, "SE-ST", certify=False), No())
        self.assertEqual(solve(ring, "DS-ST", 1, certify=False), Yes())

    def test_without_certificate(self):
        answer = solve(RIVALS, "DC-PR", 3, certify=False)
        self.assertEqual(answer, Yes(witness=(1, 3)))
        with self.assertRaises(ValueError):
            check(RIVALS, "DC-PR", answer, 3)


class StatusTest(unittest.TestCase):
    """Each row of the table of statuses of docs/USAGE.md."""

    def test_usage(self):
        for task, query in (("XX", None), ("DC-PR", None), ("SE-GR", 1), ("EE-GR", None)):
            with self.subTest(task), self.assertRaises(burgaouez.Usage):
                solve(RIVALS, task, query)

    def test_queries_that_do_not_fit(self):
        with self.assertRaises(burgaouez.UnknownArgument) as caught:
            solve(RIVALS, "DC-PR", 4)
        self.assertEqual(caught.exception.number, 4)
        with self.assertRaises(burgaouez.UnknownAtom) as caught:
            solve(DRUG, "DC-PR", 5)
        self.assertEqual(caught.exception.number, 5)
        with self.assertRaises(burgaouez.TaskNotForKind):
            solve(DRUG, "DC-SST", 1)

    def test_faults_that_the_program_tells(self):
        for source, kind in burgaouez.LINE_FAULTS.items():
            program = stand_in(self, f"echo 'error: {source} line 7 BadNumber'", "exit 2")
            with self.subTest(source), self.assertRaises(kind) as caught:
                solve(RIVALS, "SE-GR", program=program)
            self.assertEqual((caught.exception.line, caught.exception.name), (7, "BadNumber"))

    def test_endings_without_an_answer(self):
        for status, line, kind in (
            (3, "error: read certificate", burgaouez.ReadFailed),
            (4, "", burgaouez.OutputRefused),
            (5, "", burgaouez.MemoryRefused),
            (7, "error: limit log", burgaouez.LimitReached),
            (70, "", burgaouez.BuildFailed),
            (9, "", burgaouez.UnexpectedEnding),
            (2, "error: something else", burgaouez.UnexpectedEnding),
            (0, "perhaps", burgaouez.UnexpectedEnding),
            (0, "", burgaouez.UnexpectedEnding),
            (0, "w 1 x", burgaouez.UnexpectedEnding),
            (6, "error: usage", burgaouez.UnexpectedEnding),
        ):
            program = stand_in(self, f"printf '%s' '{line}'", f"exit {status}")
            with self.subTest(status=status, line=line), self.assertRaises(kind):
                solve(RIVALS, "SE-GR", program=program)

    def test_ended_by_a_signal(self):
        with self.assertRaises(burgaouez.UnexpectedEnding) as caught:
            solve(RIVALS, "SE-GR", program=stand_in(self, "kill -9 $$"))
        self.assertEqual(caught.exception.status, -9)

    def test_unknown(self):
        ring = Framework.of_attacks([(1, 2), (2, 3), (3, 1)])
        self.assertEqual(solve(ring, "SE-PR", budget=0), Unknown())

    def test_each_limit(self):
        for limit in ("input", "extensions", "log"):
            with self.subTest(limit), self.assertRaises(burgaouez.LimitReached) as caught:
                solve(RIVALS, "EE-PR", program=stand_in(self, f"echo error: limit {limit}", "exit 7"))
            self.assertEqual(caught.exception.limit, limit)

    def test_each_exception_is_one_of_the_module(self):
        for kind in (burgaouez.TimeLimitReached, burgaouez.ProgramNotFound, burgaouez.FrameworkFault, burgaouez.Usage):
            self.assertTrue(issubclass(kind, burgaouez.ArgueError))


class CheckTest(unittest.TestCase):
    def setUp(self):
        self.answer = solve(RIVALS, "DS-PR", 3)

    def test_accepted(self):
        self.assertEqual(check(RIVALS, "DS-PR", self.answer, 3), Accepted())

    def test_another_answer(self):
        told = check(RIVALS, "DS-PR", Yes(), 3, self.answer.certificate)
        self.assertIsInstance(told, Rejected)

    def test_certificate_of_another_framework(self):
        floating = Framework.from_file(EXAMPLES / "floating.af")
        answer = solve(floating, "DS-PR", 4)
        self.assertEqual(check(floating, "DS-PR", answer, 4), Accepted())
        changed = Framework.of_attacks([(1, 2), (2, 1), (1, 3), (3, 4)], size=4)
        self.assertIsInstance(check(changed, "DS-PR", answer, 4), Rejected)

    def test_truncated_certificate(self):
        answer = solve(Framework.from_file(EXAMPLES / "floating.af"), "DS-PR", 4)
        lines = answer.certificate.splitlines(keepends=True)
        for count in range(len(lines)):
            with self.subTest(count), self.assertRaises(burgaouez.CertificateFault) as caught:
                check(RIVALS, "DS-PR", self.answer, 3, "".join(lines[:count]))
            self.assertEqual(caught.exception.name, "NoEnd" if count else "NoHeader")

    def test_a_certificate_that_is_none(self):
        for text, line, name in (("hello\n", 1, "NoHeader"), ("cert 1\nr\na A99\nend\n", 3, "BadAxiom")):
            with self.subTest(text), self.assertRaises(burgaouez.CertificateFault) as caught:
                check(RIVALS, "DS-PR", self.answer, 3, text)
            self.assertEqual((caught.exception.line, caught.exception.name), (line, name))

    def test_an_answer_that_does_not_rise(self):
        with self.assertRaises(burgaouez.AnswerFault) as caught:
            check(RIVALS, "SE-PR", Sets(((3, 1),)), certificate="cert 1\nend\n")
        self.assertEqual((caught.exception.line, caught.exception.name), (1, "NotRising"))


class AnswerTextTest(unittest.TestCase):
    def test_round_trips(self):
        for answer in (Yes(), Yes(()), Yes((1, 4)), No(), No((2,)), Sets(((),)), Sets(((1,), (1, 2), (3,)))):
            self.assertEqual(burgaouez.read_answer(burgaouez.answer_text(answer)), answer)

    def test_faults(self):
        for text, line, name in (
            ("", 1, "Empty"),
            ("# x\n\n", 3, "Empty"),
            ("maybe", 1, "BadLine"),
            ("YES x", 1, "BadLine"),
            ("YES\nYES", 2, "BadLine"),
            ("w 1 2\nYES", 2, "BadLine"),
            ("YES\nw 1\nw 2", 3, "BadLine"),
            ("NO\n# c\nw 0", 3, "BadNumber"),
            ("w 1 x", 1, "BadNumber"),
            ("w 1000001", 1, "BadNumber"),
            ("w 1 1", 1, "NotRising"),
        ):
            with self.subTest(text), self.assertRaises(burgaouez.AnswerFault) as caught:
                burgaouez.read_answer(text)
            self.assertEqual((caught.exception.line, caught.exception.name), (line, name))


class RunningTest(unittest.TestCase):
    def test_a_child_that_hangs_is_ended_with_all_it_started(self):
        with tempfile.TemporaryDirectory() as folder:
            mark = Path(folder, "pid")
            program = stand_in(self, "sleep 300 &", f"echo $! > {mark}", "wait")
            begin = time.monotonic()
            with self.assertRaises(burgaouez.TimeLimitReached) as caught:
                solve(RIVALS, "SE-GR", program=program, seconds=1)
            self.assertLess(time.monotonic() - begin, 20)
            self.assertEqual(caught.exception.seconds, 1)
            self.assertTrue(self.is_gone(int(mark.read_text(encoding="ascii"))))

    def test_a_child_that_leaves_its_output_open(self):
        program = stand_in(self, "sleep 300 &", "exit 0")
        with self.assertRaises(burgaouez.TimeLimitReached):
            solve(RIVALS, "SE-GR", program=program, seconds=1)

    def is_gone(self, process: int) -> bool:
        for _ in range(50):
            state = Path(f"/proc/{process}/stat")
            if not state.exists() or state.read_text(encoding="ascii").split()[2] == "Z":
                return True
            time.sleep(0.1)
        return False

    def test_where_the_program_is_found(self):
        given, named = stand_in(self, "echo w 1"), stand_in(self, "echo w 2")
        with mock.patch.dict(os.environ, BURGAOUEZ_ARGUE=named):
            self.assertEqual(solve(RIVALS, "SE-PR", program=given).sets, ((1,),))
            self.assertEqual(solve(RIVALS, "SE-PR").sets, ((2,),))
        with mock.patch.dict(os.environ):
            os.environ.pop("BURGAOUEZ_ARGUE", None)
            self.assertEqual(burgaouez.find_program(), str(TOP / "argue"))

    def test_a_program_that_is_not_there(self):
        with self.assertRaises(burgaouez.ProgramNotFound):
            solve(RIVALS, "SE-GR", program="/nowhere/argue")
        program = Path(stand_in(self))
        program.write_bytes(b"\0no program")
        with self.assertRaises(burgaouez.ProgramNotFound):
            solve(RIVALS, "SE-GR", program=program)

    def test_nothing_is_printed(self):
        lines = "import burgaouez as b; b.solve(b.Framework.of_attacks([(1, 2)]), 'SE-GR')"
        for words in (["-c", lines], ["-m", "burgaouez"]):
            done = subprocess.run([sys.executable, *words], cwd=Path(__file__).parent, capture_output=True)
            self.assertEqual((done.returncode, done.stdout, done.stderr), (0, b"", b""))

    def test_ten_thousand_arguments(self):
        chain = Framework.of_attacks([(n, n + 1) for n in range(1, 10_000)])
        answer = solve(chain, "SE-GR", seconds=120)
        self.assertEqual(answer.sets, (tuple(range(1, 10_000, 2)),))
        self.assertEqual(check(chain, "SE-GR", answer, seconds=120), Accepted())


class ScriptTest(unittest.TestCase):
    def test_a_day_of_the_anticoagulant(self):
        """The replies are those of examples/anticoagulant.md."""
        script = Script.from_text((EXAMPLES / "anticoagulant.script").read_text(encoding="utf-8"))
        transcript = script.run(Framework.from_file(EXAMPLES / "anticoagulant.aba"), certify=False)
        self.assertEqual(
            [(reply.place, reply.at, reply.outcome) for reply in transcript.replies],
            [
                (1, 0, Sets(((),))),
                (2, 0, Yes((1, 4))),
                (3, 0, No((3,))),
                (4, 1, burgaouez.Taken((11,))),
                (5, 1, Sets(((1, 4),))),
                (6, 1, Yes()),
                (7, 2, burgaouez.Taken()),
                (8, 2, No((3,))),
                (9, 3, burgaouez.Taken()),
                (10, 3, Sets(((3,),))),
                (11, 3, No()),
            ],
        )
        self.assertEqual(
            [entry.edits for entry in transcript.history],
            [(burgaouez.AddRule(10),), (burgaouez.DropRule(11),), (burgaouez.DropRule(3),)],
        )

    def test_certificates_of_replies_are_accepted(self):
        edits = [burgaouez.AddContrary(1, 2), burgaouez.AddRule(3, (1,)), burgaouez.DropContrary(1, 3)]
        edits += [burgaouez.DropAssumption(2), burgaouez.SetContrary(1, 0)]
        asks = [burgaouez.Ask("DS-PR", 4), burgaouez.Ask("EE-CO")]
        script = Script.of_commands([command for edit in edits for command in (edit, *asks)])
        transcript = script.run(DRUG)
        self.assertEqual(len(transcript.history), 5)
        for reply in transcript.replies:
            if isinstance(reply.command, burgaouez.Ask):
                then = transcript.framework_at(DRUG, reply.at)
                told = check(then, reply.command.task, reply.outcome, reply.command.query)
                self.assertEqual(told, Accepted(), reply)

    def test_answers_after_drawn_edits(self):
        choose = Random(7)
        for _ in range(20):
            first = drawn_attacks(choose, 5)
            edits = [self.drawn_edit(choose) for _ in range(6)]
            script = Script.of_commands([command for edit in edits for command in (edit, burgaouez.Ask("EE-PR"))])
            transcript = script.run(first, certify=False)
            for reply in transcript.replies[1::2]:
                definitions = Definitions(transcript.framework_at(first, reply.at))
                expected = sorted(tuple(sorted(one)) for one in definitions.extensions("PR"))
                self.assertEqual(list(reply.outcome.sets), expected)

    def drawn_edit(self, choose: Random) -> burgaouez.Edit:
        kind = choose.choice((burgaouez.AddAttack, burgaouez.DropAttack))
        return kind(choose.randint(1, 5), choose.randint(1, 5))

    def test_what_is_refused(self):
        refused = burgaouez.Refused
        for line, outcome in (
            ("arg 0", refused("OutOfRange", 0)),
            ("arg 2", refused("ArgumentIsThere")),
            ("noarg 9", refused("UnknownArgument", 9)),
            ("att 1 2", refused("AttackIsThere")),
            ("noatt 1 3", refused("NoSuchAttack")),
            ("rule 1", refused("WrongKind")),
            ("addcon 0 9", refused("WrongKind")),
            ("delcon 1 2", refused("WrongKind")),
            ("ask DC-PR 9", refused("UnknownArgument", 9)),
        ):
            reply = Script.from_text("1 " + line).run(RIVALS).replies[0]
            self.assertEqual((reply.at, reply.outcome), (0, outcome), line)
        for line, outcome in (
            ("asm 1 0", refused("AssumptionIsThere")),
            ("asm 3 0", refused("NotFlat", 3)),
            ("noasm 3", refused("UnknownAssumption", 3)),
            ("addcon 1 0", refused("OutOfRange", 0)),
            ("addcon 3 5", refused("OutOfRange", 5)),
            ("addcon 3 1", refused("UnknownAssumption", 3)),
            ("addcon 1 3", refused("ContraryIsThere")),
            ("delcon 5 0", refused("OutOfRange", 5)),
            ("delcon 1 0", refused("OutOfRange", 0)),
            ("delcon 3 1", refused("UnknownAssumption", 3)),
            ("delcon 1 4", refused("NoSuchContrary")),
            ("norule 5", refused("NoSuchRule", 5)),
            ("ask DC-SST 1", refused("TaskNotForKind")),
        ):
            self.assertEqual(Script.from_text("1 " + line).run(DRUG).replies[0].outcome, outcome, line)

    def test_unknown_is_a_reply(self):
        ring = Framework.of_attacks([(1, 2), (2, 3), (3, 1)])
        self.assertEqual(Script.from_text("1 ask SE-PR").run(ring, budget=0).replies[0].outcome, Unknown())

    def test_sessions(self):
        script = Script.from_text("2 noatt 1 2\n1 ask SE-GR\n2 ask SE-GR\n")
        transcript = script.run(THREE, certify=False)
        self.assertEqual([reply.place for reply in transcript.of_session(2)], [1, 2])
        self.assertEqual(transcript.of_session(2)[1].outcome, Sets(((1, 2),)))
        self.assertIn(transcript.of_session(1)[0].outcome, (Sets(((1, 2),)), Sets(((1, 3),))))
        self.assertEqual(transcript.history, (burgaouez.Entry(2, (burgaouez.DropAttack(1, 2),)),))

    def test_faults(self):
        for text, line, name in (
            ("x ask SE-GR", 1, "BadSession"),
            ("9 ask SE-GR", 1, "BadSession"),
            ("\n# none\n1 foo", 3, "BadCommand"),
            ("1", 1, "BadCommand"),
            ("1 arg 1 2", 1, "BadCommand"),
            ("1 rule", 1, "BadCommand"),
            ("1 addcon 1", 1, "BadCommand"),
            ("1 delcon 1 2 3", 1, "BadCommand"),
            ("1 addcon 1 x", 1, "BadNumber"),
            ("1 ask EE-GR", 1, "BadTask"),
            ("1 ask DS-PR x", 1, "BadNumber"),
            ("1 att 1 x", 1, "BadNumber"),
            ("1 ask DS-PR", 1, "BadQuery"),
            ("1 ask SE-GR 1", 1, "BadQuery"),
            ("1 begin 1", 1, "BadCommand"),
            ("1 end", 1, "BadCommand"),
            ("1 begin\n2 end", 2, "BadCommand"),
            ("1 begin\n1 begin", 2, "BadCommand"),
            ("1 begin\n1 ask SE-GR", 2, "BadCommand"),
            ("1 begin\n1 ask NOTASK", 2, "BadCommand"),
            ("1 begin\n1 att 1 x", 2, "BadNumber"),
            ("1 begin\n1 end", 2, "EmptyGroup"),
            ("1 begin", 2, "OpenGroup"),
            ("1 begin\n1 arg 4\n\n# none\n", 5, "OpenGroup"),
            ("1 begin\n" + "1 arg 4\n" * 10_001, 10_002, "GroupTooLong"),
            ("1 begin\n" + "1 arg 4\n" * 10_000 + "1 arg x", 10_002, "BadNumber"),
        ):
            with self.subTest(text[:40]), self.assertRaises(burgaouez.ScriptFault) as caught:
                Script.from_text(text)
            self.assertEqual((caught.exception.line, caught.exception.name), (line, name))

    def test_text_reads_as_the_script(self):
        text = (
            "1 arg 4\n1 noarg 4\n2 att 1 2\n2 noatt 1 2\n3 asm 1 0\n3 noasm 1\n4 con 1 2\n4 addcon 1 3\n4 delcon 1 2\n"
            "5 rule 3 1 2\n5 rule 3\n6 norule 7\n8 ask SE-GR\n8 ask DC-PR 1\n7 begin\n7 rule 2\n7 end\n1 arg 5\n"
        )
        self.assertEqual(Script.from_text(text).text(), text)

    def test_groups_among_lines_of_others(self):
        """A group stands where it ends."""
        drop, add = burgaouez.DropAttack(1, 2), burgaouez.AddAttack(2, 1)
        text = "1 begin\n2 begin\n1 noatt 1 2\n3 ask SE-GR\n2 att 2 1\n1 att 2 1\n1 end\n2 end\n"
        script = Script.from_text(text)
        self.assertEqual(
            [(line.session, line.command) for line in script.lines],
            [(3, burgaouez.Ask("SE-GR")), (1, burgaouez.Group((drop, add))), (2, burgaouez.Group((add,)))],
        )
        longest = Script.from_text("1 begin\n" + "1 arg 4\n" * 10_000 + "1 end\n")
        self.assertEqual([len(line.command.edits) for line in longest.lines], [10_000])

    def test_groups_are_taken_whole(self):
        """A rule and its exception come together: no reply is from the one without the other."""
        edits = (burgaouez.AddRule(4, (1,)), burgaouez.AddRule(3), burgaouez.AddContrary(2, 3))
        script = Script.of_commands([burgaouez.Group(edits), burgaouez.Ask("SE-GR"), burgaouez.DropRule(3)])
        transcript = script.run(DRUG)
        self.assertEqual(transcript.history, (burgaouez.Entry(1, edits), burgaouez.Entry(1, (burgaouez.DropRule(3),))))
        self.assertEqual([reply.at for reply in transcript.replies], [1, 1, 2])
        self.assertEqual(transcript.replies[0].outcome, burgaouez.Taken((3, 4)))
        then = transcript.framework_at(DRUG, 1)
        self.assertEqual(then.rules[-2:], (Rule(3, 4, (1,)), Rule(4, 3, ())))
        self.assertEqual(then.contraries, {1: (3,), 2: (3, 4)})
        self.assertEqual(check(then, "SE-GR", transcript.replies[1].outcome), Accepted())

    def test_refused_groups_leave_nothing(self):
        """The number that the first edit would have given is given again."""
        rule, again = burgaouez.AddRule(3, (1,)), burgaouez.AddAssumption(1, 0)
        group = burgaouez.Group((rule, again, burgaouez.DropRule(9)))
        head = burgaouez.AddRule(1)
        commands = [group, burgaouez.Group((again,)), again, head, burgaouez.Group((head,)), rule]
        transcript = Script.of_commands(commands).run(DRUG)
        refused = burgaouez.Refused
        self.assertEqual(
            [(reply.at, reply.outcome) for reply in transcript.replies],
            [
                (0, refused("AssumptionIsThere", edit=2)),
                (0, refused("AssumptionIsThere", edit=1)),
                (0, refused("AssumptionIsThere")),
                (0, refused("NotFlat", 1)),
                (0, refused("NotFlat", 1, edit=1)),
                (1, burgaouez.Taken((3,))),
            ],
        )
        self.assertEqual(transcript.history, (burgaouez.Entry(1, (rule,)),))

    def test_a_group_that_is_none(self):
        with self.assertRaises(burgaouez.ScriptFault) as caught:
            Script.of_commands([burgaouez.Group(())]).run(THREE)
        self.assertEqual((caught.exception.line, caught.exception.name), (2, "EmptyGroup"))

    def test_contraries_that_come_and_go(self):
        """Then 2 speaks against 1 by itself, and 1 against 2 by what follows from it; at last nothing against 1."""
        script = Script.from_text("1 addcon 1 2\n1 delcon 1 3\n1 ask EE-PR\n1 con 1 0\n1 ask SE-GR\n")
        transcript = script.run(DRUG, certify=False)
        self.assertEqual([reply.outcome for reply in transcript.replies[2::2]], [Sets(((1,), (2,))), Sets(((1,),))])
        self.assertEqual(transcript.framework_at(DRUG, 1).contraries, {1: (2, 3), 2: (4,)})
        self.assertEqual(transcript.framework_at(DRUG, 2).contraries, {1: (2,), 2: (4,)})
        self.assertEqual(transcript.framework_at(DRUG, 3).contraries, {2: (4,)})

    def test_rules_keep_their_numbers(self):
        transcript = Script.from_text("1 norule 2\n1 rule 3 1\n1 norule 1\n").run(DRUG)
        self.assertEqual(transcript.replies[1].outcome, burgaouez.Taken((3,)))
        self.assertEqual(transcript.framework_at(DRUG, 2).rules, (Rule(1, 3, (2,)), Rule(3, 3, (1,))))
        self.assertEqual(transcript.framework_at(DRUG, 3).rules, (Rule(3, 3, (1,)),))

    def test_a_framework_with_a_gap(self):
        with self.assertRaises(burgaouez.InvalidFramework):
            THREE.edited(burgaouez.DropArgument(2))


if __name__ == "__main__":
    unittest.main()
