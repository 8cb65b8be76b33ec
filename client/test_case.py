#!/usr/bin/env python3
"""Tests of case.py, case_text.py and case_lint.py: `python3 -m unittest discover client`, with a built `argue`.

Expected values are worked out by hand, or come from by_definition.py."""
from __future__ import annotations

import contextlib
import doctest
import io
import os
import tempfile
import unittest
from pathlib import Path
from random import Random
from unittest import mock

import burgaouez
import case as case_module
import case_lint
import case_text
from burgaouez import Framework, Kind, No, Sets, Unknown, Yes
from by_definition import drawn_attacks, drawn_rules
from case import Case, CaseError, UnknownName, main

TOP = Path(__file__).resolve().parent.parent
EXAMPLES = TOP / "examples"

WITNESS = """
# a dispute
witness: The witness was abroad.
sighting: The witness saw the car: at nine.
fault: The driver was at fault.
witness attacks sighting
sighting attacks witness, fault
"""
DRUG = """
assume given: The drug is given.
assume record
known allergy: There is an allergy.
unsafe against given
interaction if record, allergy
unsafe if interaction
"""


def setUpModule():
    built = os.environ.get("BURGAOUEZ_ARGUE") or (TOP / "out" / "argue").exists()
    if not built:
        raise unittest.SkipTest("the program isn't built: build it by ./argue, or set BURGAOUEZ_ARGUE")


def load_tests(loader, tests, pattern):
    for module in (case_module, case_text, case_lint):
        tests.addTests(doctest.DocTestSuite(module))
    return tests


def same_framework(one: Framework, other: Framework) -> bool:
    """The frameworks are the same, whatever their sentences and names, and the order of attacks and contraries."""
    return parts(one) == parts(other)


def parts(framework: Framework) -> tuple:
    rules = [(rule.number, rule.head, set(rule.body)) for rule in framework.rules]
    attacks = set(framework.attacks)
    return framework.kind, framework.size, attacks, framework.assumptions, framework.contraries, rules


class ReadingTest(unittest.TestCase):
    def test_attacks(self):
        framework = Case.from_text(WITNESS).framework
        self.assertEqual((framework.kind, framework.size), (Kind.ATTACKS, 3))
        self.assertEqual(framework.names, {1: "witness", 2: "sighting", 3: "fault"})
        self.assertEqual(framework.texts[2], "The witness saw the car: at nine.")
        self.assertEqual(framework.attacks, ((1, 2), (2, 1), (2, 3)))

    def test_rules(self):
        framework = Case.from_text(DRUG).framework
        self.assertEqual(list(framework.names.values()), ["given", "record", "allergy", "unsafe", "interaction"])
        self.assertEqual((framework.assumptions, framework.contraries), ((1, 2), {1: (4,)}))
        self.assertEqual(framework.rules, ((1, 3, ()), (2, 5, (2, 3)), (3, 4, (5,))))
        self.assertEqual(framework.texts, {1: "The drug is given.", 3: "There is an allergy."})

    def test_several_are_against_one(self):
        case = Case.from_text("assume a: A.\nc against a\nb against a\nc against a\nassume b\na against b\n")
        self.assertEqual(case.framework.contraries, {1: (2, 3), 3: (1,)})
        self.assertEqual(case.sentences()[0], "“A” may be assumed; each of c and b speaks against it.")
        self.assertEqual(Case.from_text(case.text()).framework, case.framework)
        self.assertEqual(case.text().splitlines()[-3:], ["c against a", "b against a", "a against b"])

    def test_numbers_follow_the_first_mention(self):
        case = Case.from_text("b against a\nassume a\n")
        self.assertEqual((case.number("b"), case.number("a"), case.name(1)), (1, 2, "b"))

    def test_writing_of_lines(self):
        plain = Case.from_text("a: One.\nb: Two.\na attacks b, a\n")
        spaced = Case.from_text("\ufeff  a :One.  \r\nb:\tTwo.\r\n\r\n\ta  attacks\tb ,a\r\n")
        self.assertEqual(plain.framework, spaced.framework)

    def test_names_of_other_scripts(self):
        case = Case.from_text("témoin: Là.\n証人: いた。\nte\u0301moin attacks 証人\n")
        self.assertEqual(case.framework.attacks, ((1, 2),))
        self.assertEqual(case.number("te\u0301moin"), 1)

    def test_texts_are_kept_as_they_are(self):
        text = "<b>\u00a0\u05d0\u05d1 # & \"quoted\": if a attacks b, what?"
        case = Case.from_text(f"a: {text}\n")
        self.assertEqual(case.framework.texts[1], text)
        self.assertEqual(Framework.from_text(case.framework.text()).texts[1], text)

    def test_an_empty_case(self):
        self.assertEqual(Case.from_text("").framework, Framework.of_attacks([]))
        self.assertEqual(Case.from_text("").solve("EE-PR").lines, ("the empty set",))

    def test_faults(self):
        for text, line, name in (
            ("a The witness was there.", 1, "BadLine"),
            ("a: One.\na atacks a", 2, "BadLine"),
            ("asume a", 1, "BadLine"),
            ("a if", 1, "BadLine"),
            ("word", 1, "BadLine"),
            ("2nd: Two.", 1, "BadName"),
            ("a: x\na attacks a,", 2, "BadName"),
            ("a if b c", 1, "BadName"),
            ("assume", 1, "BadName"),
            ("b against a, c", 1, "BadName"),
            ("if: x", 1, "ReservedName"),
            ("a if known", 1, "ReservedName"),
            ("a: One.\n\na: Two.", 3, "TwoTexts"),
            ("assume a: One.\na: One.", 2, "TwoTexts"),
            ("a: One.\na attacks a\nassume a", 3, "MixedKinds"),
            ("assume a\na attacks a", 2, "MixedKinds"),
            ("witness: W.\nfault: F.\nwittness attacks fault", 3, "UnknownName"),
            ("assume a\na if b", 2, "AssumedHead"),
            ("known a\nassume a", 2, "AssumedHead"),
            ("b against a\nassume c", 1, "NotAssumed"),
            ("assume a\nb against a\nc against a\nc against b", 4, "NotAssumed"),
        ):
            with self.subTest(text), self.assertRaises(CaseError) as caught:
                Case.from_text(text)
            self.assertEqual((caught.exception.line, caught.exception.name.value), (line, name), text)

    def test_all_faults_are_told_in_the_order_of_lines(self):
        with self.assertRaises(CaseError) as caught:
            Case.from_text("b against a\nassume c: One.\nc: Two.\nc if d\n")
        self.assertEqual(
            [(fault.line, fault.name.value) for fault in caught.exception.faults],
            [(1, "NotAssumed"), (3, "TwoTexts"), (4, "AssumedHead")],
        )

    def test_advice(self):
        for text, advice in (
            ("a: One.\na atacks a", "is attacks meant?"),
            ("witness: W.\nwittness attacks witness", "is witness meant?"),
            ("witness The witness was there.", "is a `:` missing behind witness?"),
            ("a if b c", "separated by commas"),
        ):
            with self.subTest(text), self.assertRaisesRegex(CaseError, advice.replace("?", r"\?")):
                Case.from_text(text)

    def test_too_many_names(self):
        with mock.patch.object(burgaouez, "LARGEST_NUMBER", 5), self.assertRaises(CaseError) as caught:
            Case.from_text("".join(f"a{number}:\n" for number in range(7)))
        self.assertEqual((caught.exception.line, caught.exception.name.value), (6, "TooMany"))
        with mock.patch.object(burgaouez, "MOST_CONTRARY_LINES", 1), self.assertRaises(CaseError) as caught:
            Case.from_text("assume a\nb against a\nc against a\n")
        self.assertEqual((caught.exception.line, caught.exception.name.value), (3, "TooMany"))


class RoundTripTest(unittest.TestCase):
    def named(self, framework: Framework, choose: Random) -> Framework:
        """The framework with names and texts for some of its numbers."""
        numbers = range(1, framework.size + 1)
        names = {number: f"name-{number}" for number in numbers if choose.random() < 0.5}
        texts = {number: f"Statement {number}, with a # and a: colon." for number in numbers if choose.random() < 0.5}
        return Framework(
            framework.kind,
            framework.size,
            framework.attacks,
            framework.assumptions,
            framework.contraries,
            framework.rules,
            texts,
            names,
        )

    def test_framework_to_case_and_back(self):
        choose = Random(8)
        for _ in range(200):
            for drawn in (drawn_attacks(choose), drawn_rules(choose)):
                if drawn.kind is Kind.RULES and not drawn.assumptions and not drawn.rules:
                    continue
                case = Case.of_framework(self.named(drawn, choose))
                self.assertEqual(Case.from_text(case.text()).framework, case.framework, case.text())
                self.assertTrue(same_framework(case.framework, drawn))

    def test_text(self):
        lines = [line for line in WITNESS.splitlines() if line and not line.startswith("#")]
        self.assertEqual(Case.from_text(WITNESS).text().splitlines(), [*lines[:3], "", *lines[3:]])

    def test_rules_without_any(self):
        with self.assertRaises(ValueError):
            Case.of_framework(Framework.of_rules([], {}, [], 2)).text()

    def test_case_to_numbers_and_back(self):
        for text in (WITNESS, DRUG):
            case = Case.from_text(text)
            again = Case.of_framework(Framework.from_text(case.framework.text()))
            self.assertEqual(again.framework, case.framework)

    def test_numbers_without_a_name(self):
        case = Case.of_framework(Framework.of_attacks([(1, 2), (2, 3)], names={1: "a2", 3: "if"}))
        self.assertEqual(case.framework.names, {1: "a2", 2: "a2-", 3: "a3"})
        twice = Case.of_framework(Framework.of_attacks([], 3, names={1: "x", 2: "x"}))
        self.assertEqual(twice.framework.names, {1: "x", 2: "a2", 3: "a3"})

    def test_examples_are_the_files_with_numbers(self):
        for name in ("hearing.af", "inheritance.af", "anticoagulant.aba", "photograph.aba", "fines.aba"):
            with self.subTest(name):
                case = Case.from_file(EXAMPLES / Path(name).with_suffix(".case"))
                framework = Framework.from_file(EXAMPLES / name)
                self.assertTrue(same_framework(case.framework, framework))
                for number, text in framework.texts.items():
                    self.assertEqual(case.framework.texts[number], text)

    def test_a_file_of_numbers_is_a_case_too(self):
        case = Case.from_file(EXAMPLES / "three.af")
        self.assertEqual(case.solve("SE-GR").lines, ("a1, a3",))


class AnswerTest(unittest.TestCase):
    def test_attacks(self):
        case = Case.from_text(WITNESS)
        self.assertEqual(case.solve("EE-PR").lines, ("witness, fault", "sighting"))
        self.assertEqual(case.solve("DC-PR", "fault").lines, ("YES", "witness, fault"))
        self.assertEqual(case.solve("DS-PR", "fault").lines, ("NO", "sighting"))
        self.assertEqual(case.solve("SE-GR").lines, ("the empty set",))
        self.assertIsInstance(case.solve("SE-GR").answer, Sets)

    def test_what_follows_is_shown(self):
        case = Case.from_text(DRUG)
        self.assertEqual(case.solve("SE-GR").lines, ("record, and so allergy, unsafe, interaction",))
        self.assertEqual(case.solve("DC-PR", "given").lines, ("NO",))
        self.assertEqual(case.solve("DS-PR", "unsafe").lines, ("YES",))

    def test_a_name_that_is_not_there(self):
        with self.assertRaises(UnknownName) as caught:
            Case.from_text(WITNESS).solve("DC-PR", "sihgting")
        self.assertEqual((caught.exception.name, caught.exception.near), ("sihgting", ("sighting",)))

    def test_a_number_stands_for_its_name(self):
        self.assertEqual(Case.from_text(WITNESS).number("2"), 2)
        with self.assertRaises(UnknownName):
            Case.from_text(WITNESS).number("4")

    def test_answers_of_each_type(self):
        case = Case.from_text(WITNESS)
        self.assertEqual(case.told(Unknown()), ("UNKNOWN",))
        self.assertEqual(case.told(Yes()), ("YES",))
        self.assertEqual(case.told(No((2,))), ("NO", "sighting"))

    def test_sentences(self):
        first = Case.from_text(WITNESS).sentences()[0]
        self.assertEqual(first, "“The witness was abroad” attacks “The witness saw the car: at nine”.")
        self.assertEqual(
            Case.from_text(DRUG).sentences(),
            (
                "“The drug is given” may be assumed; unsafe speaks against it.",
                "record may be assumed; nothing speaks against it.",
                "It is known: “There is an allergy”.",
                "interaction follows from record and “There is an allergy”.",
                "unsafe follows from interaction.",
            ),
        )


class LiveTest(unittest.TestCase):
    def test_replies_in_names(self):
        case = Case.from_text(DRUG)
        script = case.script("# a day\n1 ask SE-GR\n1 norule 1\n1 ask DC-PR given\n1 rule unsafe\n1 con given 9\n")
        transcript = script.run(case.framework, certify=False)
        self.assertEqual(
            [case.told_reply(reply, transcript) for reply in transcript.replies],
            [
                ("session 1, at 0: ask SE-GR", "record, and so allergy, unsafe, interaction"),
                ("session 1, at 1: norule 1", "OK"),
                ("session 1, at 1: ask DC-PR given", "YES", "given, record"),
                ("session 1, at 2: rule unsafe", "OK rule 4"),
                ("session 1, at 2: con given 9", "REFUSED OutOfRange 9"),
            ],
        )

    def test_contraries_by_name(self):
        """That there is an allergy is known, so that it speaks against giving the drug is enough."""
        case = Case.from_text("assume given\nknown allergy\nwish: W.\nwish against given\n")
        script = case.script("1 addcon given allergy\n1 delcon given wish\n1 ask SE-GR\n1 delcon given wish\n")
        self.assertEqual(script.text().splitlines()[:2], ["1 addcon 1 2", "1 delcon 1 3"])
        transcript = script.run(case.framework, certify=False)
        self.assertEqual(
            [case.told_reply(reply, transcript) for reply in transcript.replies],
            [
                ("session 1, at 1: addcon given allergy", "OK"),
                ("session 1, at 2: delcon given wish", "OK"),
                ("session 1, at 2: ask SE-GR", "the empty set, and so allergy"),
                ("session 1, at 2: delcon given wish", "REFUSED NoSuchContrary"),
            ],
        )

    def test_groups_in_names(self):
        case = Case.from_text(DRUG)
        script = case.script("1 begin\n1 norule 1\n1 rule unsafe\n1 end\n1 begin\n1 norule 9\n1 end\n")
        transcript = script.run(case.framework, certify=False)
        self.assertEqual(
            [case.told_reply(reply, transcript) for reply in transcript.replies],
            [
                ("session 1, at 1: begin; norule 1; rule unsafe; end", "OK rule 4"),
                ("session 1, at 1: begin; norule 9; end", "REFUSED NoSuchRule 9 edit 1"),
            ],
        )

    def test_dropped_arguments(self):
        case = Case.from_text(WITNESS)
        transcript = case.script("1 noarg sighting\n1 ask SE-GR").run(case.framework)
        self.assertEqual(case.told_reply(transcript.replies[1], transcript)[1:], ("witness, fault",))

    def test_an_unknown_name(self):
        with self.assertRaises(CaseError) as caught:
            Case.from_text(WITNESS).script("1 ask SE-GR\n1 noatt witness sihgting\n")
        self.assertEqual((caught.exception.line, caught.exception.name.value), (2, "UnknownName"))
        with self.assertRaises(burgaouez.ScriptFault):
            Case.from_text(WITNESS).script("1 ask XX witness")


class LintTest(unittest.TestCase):
    def told(self, text: str) -> list[tuple[str, str]]:
        warnings = case_lint.warnings_of(Case.from_text(text))
        return [(warning.name, warning.about) for warning in warnings if not warning.is_remark]

    def test_a_sound_case(self):
        self.assertEqual(self.told((EXAMPLES / "anticoagulant.case").read_text(encoding="utf-8")), [])
        self.assertEqual(self.told(WITNESS), [])

    def test_remarks(self):
        """What is decided there, and that it is known what speaks against one of the two: see anticoagulant.md."""
        warnings = case_lint.warnings_of(Case.from_file(EXAMPLES / "anticoagulant.case"))
        self.assertEqual(
            [(warning.name, warning.about) for warning in warnings],
            [("Decision", "given"), ("KnownAgainst", "untreated"), ("Decision", "untreated")],
        )

    def test_what_always_stands(self):
        """x has two contraries and z none: perhaps one of the two was meant to be against z."""
        text = "assume x: X.\nassume z: Z.\nk: K.\nl: L.\nk against x\nl against x\nk if z\nl if z, x\n"
        warnings = case_lint.warnings_of(Case.from_text(text))
        remarks = [(warning.name, warning.about) for warning in warnings if warning.is_remark]
        self.assertEqual(remarks, [("Unopposed", "z")])

    def test_attacks(self):
        text = "a: A.\nb: B.\nc: C.\nd: c.\na attacks b\nb attacks b, d\na attacks b\n"
        self.assertEqual(
            self.told(text), [("SelfAttack", "b"), ("NoAttack", "c"), ("TextTwice", "d"), ("AttackTwice", "a")]
        )

    def test_rules(self):
        given = "assume x: X.\nassume z: Z.\nk: K.\nk against x\nk if z\n"
        self.assertEqual(self.told(given), [])
        for line, warning in (
            ("a: A.\nk if a", ("Underived", "a")),
            ("a: A.\nk if a", ("DeadRule", "k")),
            ("a: A.\na against z", ("UnderivableContrary", "a")),
            ("z against z", ("OwnContrary", "z")),
            ("k against x", ("AgainstTwice", "k")),
            ("a: A.\na against x", ("UnderivableContrary", "a")),
            ("a: A.", ("NeverUsed", "a")),
            ("k if x", ("SelfDefeat", "x")),
            ("a: A.\na if x", ("ConcludedUnused", "a")),
            ("assume a: A.", ("AssumedUnused", "a")),
            ("k if k", ("OwnPremise", "k")),
            ("k if z", ("RuleTwice", "k")),
            ("a if x\nk if a", ("NoText", "a")),
        ):
            with self.subTest(line):
                self.assertIn(warning, self.told(given + line + "\n"))

    def test_one_of_several_that_nothing_leads_to(self):
        """x doesn't always stand: k, which is against it too, follows from z."""
        text = "assume x: X.\nassume z: Z.\nk: K.\na: A.\nk against x\na against x\nk if z\na against z\n"
        said = [warning.says for warning in case_lint.warnings_of(Case.from_text(text)) if not warning.is_remark]
        self.assertEqual(said, [
            "nothing leads to a, which is against x, so that changes nothing",
            "nothing leads to a, which is against z, so z always stands",
        ])

    def test_two_rules_for_one_statement(self):
        self.assertEqual(self.told("assume x: X.\nassume z: Z.\nk: K.\nk against x\nk if z\nk if z, x\n"), [])

    def test_lines(self):
        warnings = case_lint.warnings_of(Case.from_text("assume a: A.\nb: B.\n\nb against a\nb if a\nb if a\n"))
        self.assertEqual([(one.line, one.name) for one in warnings], [(1, "SelfDefeat"), (6, "RuleTwice")])

    def test_without_lines(self):
        warnings = case_lint.warnings_of(Case.of_framework(Framework.of_attacks([(1, 1)], 2)))
        self.assertEqual([str(w).split(":")[0] for w in warnings], ["NoAttack", "SelfAttack"])


class CommandTest(unittest.TestCase):
    def run_with(self, *words: str) -> tuple[int, str, str]:
        out, err = io.StringIO(), io.StringIO()
        with contextlib.redirect_stdout(out), contextlib.redirect_stderr(err):
            status = main(words)
        return status, out.getvalue(), err.getvalue()

    def case(self, text: str) -> str:
        folder = tempfile.TemporaryDirectory()
        self.addCleanup(folder.cleanup)
        path = Path(folder.name, "case")
        path.write_text(text, encoding="utf-8")
        return str(path)

    def test_questions(self):
        path = str(EXAMPLES / "anticoagulant.case")
        self.assertEqual(self.run_with(path, "-p", "DC-PR", "-q", "untreated"), (0, "NO\n", ""))
        status, out, _ = self.run_with(path, "-p", "EE-ST")
        self.assertEqual(status, 0)
        self.assertEqual(
            [line.split(", and so ")[0] for line in out.splitlines()], ["given, tablets", "record-right"]
        )

    def test_statuses(self):
        path = self.case(WITNESS)
        self.assertEqual(self.run_with(path, "-p", "DC-PR", "-q", "x")[0], 2)
        self.assertEqual(self.run_with(path, "-p", "DC-PR")[0], 2)
        self.assertEqual(self.run_with("/nowhere")[0], 3)
        ring = self.case("a: A.\nb: B.\nc: C.\na attacks b\nb attacks c\nc attacks a\n")
        self.assertEqual(self.run_with(ring, "-p", "SE-PR", "-b", "0"), (6, "UNKNOWN\n", ""))

    def test_faults_go_to_standard_error(self):
        status, out, err = self.run_with(self.case("a: One.\na: Two.\nb attacks a\n"))
        self.assertEqual((status, out), (2, ""))
        self.assertEqual([line.split(":")[0] for line in err.splitlines()], ["line 2 TwoTexts", "line 3 UnknownName"])

    def test_lint(self):
        self.assertEqual(self.run_with(self.case(WITNESS), "--lint"), (0, "", ""))
        status, out, _ = self.run_with(self.case("a: A.\n"), "--lint")
        self.assertEqual((status, out.split(":")[0]), (1, "line 1 NoAttack"))

    def test_certificate(self):
        with tempfile.TemporaryDirectory() as folder:
            path = Path(folder, "certificate")
            self.assertEqual(self.run_with(self.case(WITNESS), "-p", "SE-PR", "-c", str(path))[0], 0)
            case = Case.from_text(WITNESS)
            answer = case.solve("SE-PR").answer
            shown = path.read_text(encoding="ascii")
            self.assertEqual(burgaouez.check(case.framework, "SE-PR", answer, certificate=shown), burgaouez.Accepted())

    def test_both_notations(self):
        _, numbers, _ = self.run_with(self.case(DRUG), "--framework")
        _, names, _ = self.run_with(self.case(numbers), "--case")
        self.assertEqual(Case.from_text(names).framework, Case.from_text(DRUG).framework)

    def test_script(self):
        script = self.case("1 ask SE-GR\n")
        self.assertEqual(
            self.run_with(self.case(WITNESS), "-s", script),
            (0, "session 1, at 0: ask SE-GR\n    the empty set\n", ""),
        )


if __name__ == "__main__":
    unittest.main()
