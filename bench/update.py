#!/usr/bin/env python3
"""Measures edits of attacks, in groups of 1, 10 and 1,000, in a framework of 1,000,000 arguments and 3,000,000 attacks.

It copies the crates to a temporary folder, adds a program that makes a framework of pseudo-random attacks, and has
`rt run` prove and build it (hours where nothing of the crates is kept). The program opens an engine and has it follow
one edit, behind which the log has all axioms that the framework needs, and then 1,000 further ones: by turns an attack
that comes and one that goes, at places all over the framework. It tells the least, the median, the 99th percentile and
the greatest time of an update, and beside them the time of `insert_attack` and `remove_attack` alone, 1,000 of each,
and of one `copy`; and those of groups: of `apply_group`, by which a commit changes the framework, also where the last
edit is refused, and of the updates of all edits of a group. What is claimed is that the median of an update is under a
millisecond, and that groups of 1,000 take milliseconds. Each edit but the refused ones is one that the framework takes:
the run is wrong where an edit is missing, or the framework behind them has another number of attacks.

usage: bench/update.py [--runs K] [--program FILE] [--keep FILE]
"""
import argparse
import os
import shutil
import subprocess
import sys
import tempfile
from pathlib import Path

TOP = Path(__file__).resolve().parent.parent
ARGUMENTS = 1_000_000
ATTACKS = 3_000_000
EDITS = 1_000

SIZES = (1, 10, 1_000)
FEWEST = 10  # groups of a size

USED = ("lists", "semantics", "dung_notions", "edit_rules", "edit_groups", "hinted_log", "oracle_core")

# It stands here, and not in a file of its own, since `rt ci` refuses a source outside the crates.
PROGRAM = """\
//! Makes a framework of pseudo-random attacks and an engine for it, and has the engine follow edits of one attack;
//! prints how long the updates took, and what the framework alone takes for the same.
#![tactic(auto)]

ghost use Rattle.std.specs.Prelude.{Contains, IfSome, IsTrue};
ghost use Rattle.semantics.specs.Arguments.{IsArgument};
ghost use Rattle.semantics.specs.Frameworks.{af};
ghost use Rattle.edit_rules.specs.Replay.{IsTaken};

use dung_notions::AfPlain;
use edit_groups::apply_group;
use edit_rules::{Edit, Effect, Framework};
use hinted_log::MAX_STEPS;
use lists::{Items, Memory};
use oracle_core::Engine;
use semantics::is_argument;
use std::alloc::Global;
use std::io;
use std::rt::Clock;
use std::time::Instant;

/// How often numbers are drawn at most until an edit is found that the framework takes.
const DRAWS: u32 = 1_000;

/// How many edits the groups have that are measured, and the names of what an engine and a framework take for them.
const SIZES: [(u32, &str, &str); 3] = [
    (1, "follow_1", "group_1"),
    (10, "follow_10", "group_10"),
    (1_000, "follow_1000", "group_1000"),
];

/// The fewest groups of a size.
const FEWEST: u32 = 10;

/// How many groups of a size are measured, so that there are about so many edits.
fn groups_of(count: u32, size: u32) -> u32 {
    let groups = count.checked_div(size).unwrap_or(0);
    if groups < FEWEST { FEWEST } else { groups }
}

/// The numbers from 1 to `count`.
fn numbers(alloc: Global, count: u32) -> Result<Vec<u32>, Memory> {
    let mut found = Vec::new(alloc);
    for number in 0..count {
        found.push(number.saturating_add(1))?;
    }
    Ok(found)
}

/// A number from 1 to `count`, by the upper half of the state, which a linear congruence moves on.
fn draw(state: &mut u64, count: u32) -> u32 {
    *state = state
        .wrapping_mul(6364136223846793005)
        .wrapping_add(1442695040888963407);
    let count = u64::from(count);
    if count == 0 {
        return 0;
    }
    u32::try_from(((*state >> 32) % count).saturating_add(1)).unwrap_or(0)
}

/// So many attacks.
fn attacks(
    alloc: Global,
    state: &mut u64,
    arguments: u32,
    count: u32,
) -> Result<Vec<(u32, u32)>, Memory> {
    let mut found = Vec::new(alloc);
    for _ in 0..count {
        let attacker = draw(state, arguments);
        found.push((attacker, draw(state, arguments)))?;
    }
    Ok(found)
}

/// The framework.
fn made(alloc: Global, state: &mut u64, arguments: u32, count: u32) -> Result<AfPlain, Memory> {
    let numbers = numbers(alloc, arguments)?;
    AfPlain::of_lists(alloc, &numbers, &attacks(alloc, state, arguments, count)?)
}

/// Whether two numbers are those of live arguments.
fn are_live(plain: &AfPlain, attacker: u32, target: u32) -> bool
    ensures arguments { IsTrue result → IsArgument attacker × IsArgument target }
    ensures live { IsTrue result → Contains plain.now.live attacker × Contains plain.now.live target }
{
    is_argument(attacker) && is_argument(target) && plain.is_live(attacker) && plain.is_live(target)
}

/// What an attack that comes does, where the framework takes it.
fn coming(alloc: Global, plain: &AfPlain, attacker: u32, target: u32) -> Option<Effect>
    ensures { IfSome result (λ effect. IsTaken (af plain.now) effect.edit effect) }
{
    if !are_live(plain, attacker, target) || plain.has_attack(attacker, target) {
        return None;
    }
    Some(Effect::of_edit(alloc, Edit::AttackAdd(attacker, target)))
}

/// What an attack that goes does, where the framework takes it.
fn going(alloc: Global, plain: &AfPlain, attacker: u32, target: u32) -> Option<Effect>
    ensures { IfSome result (λ effect. IsTaken (af plain.now) effect.edit effect) }
{
    if !are_live(plain, attacker, target) || !plain.has_attack(attacker, target) {
        return None;
    }
    Some(Effect::of_edit(alloc, Edit::AttackDrop(attacker, target)))
}

/// The target of one of the attacks that leave an argument, or 0 where none does.
fn some_target(plain: &AfPlain, state: &mut u64, attacker: u32) -> u32 {
    let targets = plain.targets_of(attacker);
    let at = draw(state, u32::try_from(targets.len()).unwrap_or(0)).saturating_sub(1);
    match targets.get(at as usize) {
        Some(pair) => pair.1,
        None => 0,
    }
}

/// What an attack does that comes, or else goes, at numbers that are drawn once.
fn drawn_once(
    alloc: Global,
    plain: &AfPlain,
    state: &mut u64,
    arguments: u32,
    comes: bool,
) -> Option<Effect>
    ensures { IfSome result (λ effect. IsTaken (af plain.now) effect.edit effect) }
{
    let attacker = draw(state, arguments);
    if comes {
        return coming(alloc, plain, attacker, draw(state, arguments));
    }
    going(alloc, plain, attacker, some_target(plain, state, attacker))
}

/// What an attack does that comes, or else goes, at numbers that are drawn until the framework takes it.
fn drawn(
    alloc: Global,
    plain: &AfPlain,
    state: &mut u64,
    arguments: u32,
    comes: bool,
) -> Option<Effect>
    ensures { IfSome result (λ effect. IsTaken (af plain.now) effect.edit effect) }
{
    for _ in 0..DRAWS {
        match drawn_once(alloc, plain, state, arguments, comes) {
            Some(effect) => return Some(effect),
            None => {}
        }
    }
    None
}

/// Has the engine follow one edit that is drawn, and tells the nanoseconds of the update.
fn followed(
    rt: &impl Clock,
    alloc: Global,
    engine: &mut Engine,
    state: &mut u64,
    arguments: u32,
    comes: bool,
) -> io::Result<Option<u64>> {
    let Framework::Af(plain) = engine.framework() else {
        return Ok(None);
    };
    let Some(effect) = drawn(alloc, plain, state, arguments, comes) else {
        return Ok(None);
    };
    let begin = Instant::now(rt)?;
    let end = engine.update(alloc, &effect);
    let taken = begin.elapsed(rt)?.as_nanos();
    if end.is_err() {
        return Ok(None);
    }
    Ok(Some(u64::try_from(taken).unwrap_or(u64::MAX)))
}

/// Further updates, by turns an attack that comes and one that goes: the nanoseconds of each.
fn all_followed(
    rt: &impl Clock,
    alloc: Global,
    engine: &mut Engine,
    state: &mut u64,
    arguments: u32,
    count: u32,
) -> io::Result<Option<Vec<u64>>> {
    let mut times = Vec::new(alloc);
    for index in 0..count {
        let Some(taken) = followed(rt, alloc, engine, state, arguments, index % 2 == 0)? else {
            return Ok(None);
        };
        if times.push(taken).is_err() {
            return Ok(None);
        }
    }
    Ok(Some(times))
}

/// Adds an attack to the framework, or takes one away, at numbers that are drawn, and tells the nanoseconds of that.
fn changed(
    rt: &impl Clock,
    alloc: Global,
    plain: &mut AfPlain,
    state: &mut u64,
    arguments: u32,
    comes: bool,
) -> io::Result<Option<u64>> {
    let Some(effect) = drawn(alloc, plain, state, arguments, comes) else {
        return Ok(None);
    };
    match effect.edit {
        Edit::AttackAdd(attacker, target) => inserted(rt, plain, attacker, target),
        Edit::AttackDrop(attacker, target) => removed(rt, plain, attacker, target),
        _ => Ok(None),
    }
}

/// The nanoseconds of an attack that comes.
fn inserted(
    rt: &impl Clock,
    plain: &mut AfPlain,
    attacker: u32,
    target: u32,
) -> io::Result<Option<u64>> {
    if !plain.is_live(attacker) || !plain.is_live(target) {
        return Ok(None);
    }
    let begin = Instant::now(rt)?;
    let end = plain.insert_attack(attacker, target);
    let taken = begin.elapsed(rt)?.as_nanos();
    if end.is_err() {
        return Ok(None);
    }
    Ok(Some(u64::try_from(taken).unwrap_or(u64::MAX)))
}

/// The nanoseconds of an attack that goes.
fn removed(
    rt: &impl Clock,
    plain: &mut AfPlain,
    attacker: u32,
    target: u32,
) -> io::Result<Option<u64>> {
    let begin = Instant::now(rt)?;
    plain.remove_attack(attacker, target);
    let taken = begin.elapsed(rt)?.as_nanos();
    Ok(Some(u64::try_from(taken).unwrap_or(u64::MAX)))
}

/// Every second one, from the first or the second on.
fn every_second(alloc: Global, times: &[u64], first: usize) -> Result<Vec<u64>, Memory> {
    let mut found = Vec::new(alloc);
    for (index, time) in times.iter().enumerate() {
        if index % 2 == first {
            found.push(*time)?;
        }
    }
    Ok(found)
}

/// The one at a place, or 0 where there is none.
fn at(times: &[u64], place: usize) -> u64 {
    match times.get(place) {
        Some(time) => *time,
        None => 0,
    }
}

/// Prints how many there are, the least, the median, the 99th percentile and the greatest.
fn print_times(rt: &impl Print, name: &str, mut times: Vec<u64>) -> io::Result<()> {
    if times.sort().is_err() {
        return Ok(());
    }
    let count = times.len();
    let least = at(&times, 0);
    let median = at(&times, count / 2);
    let high = at(&times, count.saturating_sub(1).saturating_sub(count / 100));
    let greatest = at(&times, count.saturating_sub(1));
    println!(rt; "{name} {count} {least} {median} {high} {greatest}")
}

/// Prints the same of the attacks that come and of those that go, where these were by turns.
fn print_both(
    rt: &impl Print,
    alloc: Global,
    coming: &str,
    going: &str,
    times: &[u64],
) -> io::Result<()> {
    let Ok(first) = every_second(alloc, times, 0) else {
        return Ok(());
    };
    print_times(rt, coming, first)?;
    let Ok(second) = every_second(alloc, times, 1) else {
        return Ok(());
    };
    print_times(rt, going, second)
}

/// A group of edits that are drawn, by turns an attack that comes and one that goes. The framework takes each of them
/// by itself: the group is refused where an attack is drawn twice.
fn drawn_group(
    alloc: Global,
    plain: &AfPlain,
    state: &mut u64,
    arguments: u32,
    size: u32,
    first: u32,
) -> Option<Items<Edit>> {
    let mut edits = Items::new(alloc);
    for index in 0..size {
        let comes = first.wrapping_add(index) % 2 == 0;
        let effect = drawn(alloc, plain, state, arguments, comes)?;
        let Ok(edit) = effect.edit.copy(alloc) else {
            return None;
        };
        if edits.push(edit).is_err() {
            return None;
        }
    }
    Some(edits)
}

/// The nanoseconds that a group takes. `None` where it is refused.
fn group_taken(
    rt: &impl Clock,
    alloc: Global,
    framework: &mut Framework,
    edits: &[Edit],
) -> io::Result<Option<u64>> {
    let begin = Instant::now(rt)?;
    let end = apply_group(alloc, framework, edits);
    let taken = begin.elapsed(rt)?.as_nanos();
    if end.is_err() {
        return Ok(None);
    }
    Ok(Some(u64::try_from(taken).unwrap_or(u64::MAX)))
}

/// The nanoseconds of a group that is refused at its last edit, which is the first one again. `None` where it is taken.
fn group_refused(
    rt: &impl Clock,
    alloc: Global,
    framework: &mut Framework,
    mut edits: Items<Edit>,
) -> io::Result<Option<u64>> {
    let Some(first) = edits.as_slice().first() else {
        return Ok(None);
    };
    let Ok(again) = first.copy(alloc) else {
        return Ok(None);
    };
    if edits.push(again).is_err() {
        return Ok(None);
    }
    let begin = Instant::now(rt)?;
    let end = apply_group(alloc, framework, edits.as_slice());
    let taken = begin.elapsed(rt)?.as_nanos();
    if end.is_ok() {
        return Ok(None);
    }
    Ok(Some(u64::try_from(taken).unwrap_or(u64::MAX)))
}

/// Has a framework take a group, which is drawn until it does, and tells the nanoseconds; or else refuse one.
fn grouped(
    rt: &impl Clock,
    alloc: Global,
    framework: &mut Framework,
    state: &mut u64,
    arguments: u32,
    size: u32,
    first: u32,
    takes: bool,
) -> io::Result<Option<u64>> {
    for _ in 0..DRAWS {
        let Framework::Af(plain) = &*framework else {
            return Ok(None);
        };
        let Some(edits) = drawn_group(alloc, plain, state, arguments, size, first) else {
            return Ok(None);
        };
        let told = if takes {
            group_taken(rt, alloc, framework, edits.as_slice())?
        } else {
            group_refused(rt, alloc, framework, edits)?
        };
        if told.is_some() {
            return Ok(told);
        }
    }
    Ok(None)
}

/// Has a framework take so many groups, or else refuse them: the nanoseconds of each.
fn all_grouped(
    rt: &impl Clock,
    alloc: Global,
    framework: &mut Framework,
    state: &mut u64,
    arguments: u32,
    size: u32,
    count: u32,
    takes: bool,
) -> io::Result<Option<Vec<u64>>> {
    let mut times = Vec::new(alloc);
    for index in 0..count {
        let told = grouped(rt, alloc, framework, state, arguments, size, index, takes)?;
        let Some(taken) = told else {
            return Ok(None);
        };
        if times.push(taken).is_err() {
            return Ok(None);
        }
    }
    Ok(Some(times))
}

/// Measures groups in a copy of the framework, of each size, and then some that are refused.
fn measure_groups(
    rt: &(impl Clock + Print),
    alloc: Global,
    plain: &AfPlain,
    state: &mut u64,
    arguments: u32,
    count: u32,
) -> io::Result<()> {
    let Ok(copy) = plain.copy(alloc) else {
        return Ok(());
    };
    let mut framework = Framework::Af(copy);
    for (size, _, name) in SIZES {
        let groups = groups_of(count, size);
        let told = all_grouped(rt, alloc, &mut framework, state, arguments, size, groups, true)?;
        let Some(times) = told else {
            return Ok(());
        };
        print_times(rt, name, times)?;
    }
    let told = all_grouped(rt, alloc, &mut framework, state, arguments, 1_000, FEWEST, false)?;
    let Some(times) = told else {
        return Ok(());
    };
    print_times(rt, "refused_1001", times)?;
    let Framework::Af(plain) = &framework else {
        return Ok(());
    };
    let there = plain.attack_count();
    println!(rt; "grouped {there}")
}

/// The sums of so many times each.
fn sums(alloc: Global, times: &[u64], size: u32) -> Result<Vec<u64>, Memory> {
    let mut found = Vec::new(alloc);
    let mut sum = 0u64;
    let mut left = size;
    for time in times {
        sum = sum.saturating_add(*time);
        left = left.saturating_sub(1);
        if left == 0 {
            found.push(sum)?;
            sum = 0;
            left = size;
        }
    }
    Ok(found)
}

/// Measures how an engine follows groups of each size, edit by edit.
fn measure_followed(
    rt: &(impl Clock + Print),
    alloc: Global,
    engine: &mut Engine,
    state: &mut u64,
    arguments: u32,
    count: u32,
) -> io::Result<()> {
    for (size, name, _) in SIZES {
        let edits = groups_of(count, size).saturating_mul(size);
        let Some(times) = all_followed(rt, alloc, engine, state, arguments, edits)? else {
            return Ok(());
        };
        let Ok(found) = sums(alloc, &times, size) else {
            return Ok(());
        };
        print_times(rt, name, found)?;
    }
    Ok(())
}

/// Measures a copy of the framework, and in it attacks that come and go, by turns and so many of each.
fn measure_framework(
    rt: &(impl Clock + Print),
    alloc: Global,
    plain: &AfPlain,
    state: &mut u64,
    arguments: u32,
    count: u32,
) -> io::Result<()> {
    let begin = Instant::now(rt)?;
    let Ok(mut copy) = plain.copy(alloc) else {
        return Ok(());
    };
    let taken = begin.elapsed(rt)?.as_nanos();
    println!(rt; "copy 1 {taken}")?;
    let mut times = Vec::new(alloc);
    for index in 0..count.saturating_mul(2) {
        let Some(taken) = changed(rt, alloc, &mut copy, state, arguments, index % 2 == 0)? else {
            return Ok(());
        };
        if times.push(taken).is_err() {
            return Ok(());
        }
    }
    print_both(rt, alloc, "insert_attack", "remove_attack", &times)
}

/// Measures the first update of an engine, which takes all axioms in, and so many further ones.
fn measure_engine(
    rt: &(impl Clock + Print),
    alloc: Global,
    plain: AfPlain,
    state: &mut u64,
    arguments: u32,
    count: u32,
) -> io::Result<()> {
    let Ok(mut engine) = Engine::new(alloc, 1, Framework::Af(plain), MAX_STEPS) else {
        return Ok(());
    };
    let Some(first) = followed(rt, alloc, &mut engine, state, arguments, true)? else {
        return Ok(());
    };
    let before = engine.steps();
    println!(rt; "first_update 1 {first}")?;
    let Some(times) = all_followed(rt, alloc, &mut engine, state, arguments, count)? else {
        return Ok(());
    };
    let after = engine.steps();
    println!(rt; "steps {before} {after}")?;
    let second = at(&times, 0);
    println!(rt; "second_update 1 {second}")?;
    print_both(rt, alloc, "update_coming", "update_going", &times)?;
    print_times(rt, "update", times)?;
    measure_followed(rt, alloc, &mut engine, state, arguments, count)?;
    let Framework::Af(plain) = engine.framework() else {
        return Ok(());
    };
    let live = plain.live().len();
    let there = plain.attack_count();
    println!(rt; "edited {live} {there}")
}

/// Makes the framework of a line's numbers, and measures.
fn measure(
    rt: &(impl Clock + Print),
    alloc: Global,
    arguments: u32,
    attacks: u32,
    count: u32,
) -> io::Result<()> {
    let mut state = 1u64;
    let Ok(plain) = made(alloc, &mut state, arguments, attacks) else {
        return Ok(());
    };
    let live = plain.live().len();
    let there = plain.attack_count();
    println!(rt;
        "part, how many times, and nanoseconds: of the one, or the least, median, 99th percentile and greatest"
    )?;
    println!(rt; "framework {live} {there}")?;
    measure_framework(rt, alloc, &plain, &mut state, arguments, count)?;
    measure_groups(rt, alloc, &plain, &mut state, arguments, count)?;
    measure_engine(rt, alloc, plain, &mut state, arguments, count)
}

/// The three numbers of a line.
fn three_numbers(line: &str) -> Option<(u32, u32, u32)> {
    let (first, rest) = line.split_once(' ')?;
    let (second, third) = rest.split_once(' ')?;
    Some((
        first.parse::<u32>().ok()?,
        second.parse::<u32>().ok()?,
        third.parse::<u32>().ok()?,
    ))
}

fn main(rt: HostRuntime) -> io::Result<()> {
    for line in rt.lines(rt.alloc()) {
        let line = line?;
        let Some((arguments, attacks, count)) = three_numbers(line.as_str()) else {
            return Ok(());
        };
        measure(&rt, rt.alloc(), arguments, attacks, count)?;
    }
    Ok(())
}
"""

# What the proof of the program needs beside what the check finds.
LEMMAS = """\
-- Attacks that come between live arguments are taken.
use Rattle.std.proofs.Common.{◌≡◌, ◌∙◌, ℕ, ◌∷◌, [], false, not, Ok, ap, sym}
use Rattle.std.specs.Prelude.{Contains}
use Rattle.semantics.specs.Framework.{Af}
use Rattle.semantics.specs.Frameworks.{Framework, af}
use Rattle.semantics.specs.Arguments.{IsArgument}
use Rattle.edit_rules.specs.declared.edit.Edit.{Edit}
use Rattle.edit_rules.specs.declared.edit.Edit.TheVariants.{AttackAdd}
use Rattle.edit_rules.specs.declared.effect.Effect.{Effect}
use Rattle.edit_rules.specs.declared.effect.EditFault.TheVariants.{AttackIsThere}
use Rattle.edit_rules.specs.Effects.{plain_effect}
use Rattle.edit_rules.specs.Refusals.{Refusal, done_unless, refused_if}
use Rattle.edit_rules.proofs.EditWordTests.{is_false, there_number}
use Rattle.edit_rules.proofs.RefusalLemmas.{passed}
use Rattle.edit_rules.specs.Edits.{attack_added, edit_outcome, outside, unknown}
use Rattle.edit_rules.specs.Pairs.{has_pair}
use Rattle.edit_rules.specs.Replay.{IsTaken, left_by}
use Rattle.edit_rules.proofs.EditTests.{bounds_within, pair_there}

-- both numbers are those of live arguments
abbrev pub AreLive : Af → ℕ → ℕ → Type 0
AreLive f b a = (IsArgument b × IsArgument a) × (Contains f.live b × Contains f.live a)

-- the refusals of the ends are passed, and one behind them
ends_pass : (f : Af) (b a : ℕ) (done : Framework × Effect) (last : Refusal) → AreLive f b a → last.stands ≡ false
    → done_unless (outside b ∷ outside a ∷ unknown f b ∷ unknown f a ∷ last ∷ []) done ≡ Ok done
ends_pass f b a done last live fails =
    passed (outside b) (outside a ∷ unknown f b ∷ unknown f a ∷ last ∷ []) done (bounds_within b live.0.0)
    ∙ passed (outside a) (unknown f b ∷ unknown f a ∷ last ∷ []) done (bounds_within a live.0.1)
    ∙ passed (unknown f b) (unknown f a ∷ last ∷ []) done (ap not (there_number f.live b live.1.0))
    ∙ passed (unknown f a) (last ∷ []) done (ap not (there_number f.live a live.1.1))
    ∙ passed last [] done fails

taken : (f g : Framework) (edit : Edit) (effect : Effect) → edit_outcome f edit ≡ Ok (g, effect)
    → IsTaken f edit effect
taken f g edit effect is = is ∙ ap (λ h. Ok (h, effect)) (sym (ap (left_by f) is))

pub coming_taken : (f : Af) (b a : ℕ) → AreLive f b a → (Contains f.attacks (b, a) → ⊥)
    → IsTaken (af f) (AttackAdd b a) (plain_effect (AttackAdd b a))
coming_taken f b a live new =
    let row = attack_added f b a in
    taken (af f) row.framework (AttackAdd b a) row.effect
    (ends_pass f b a (row.framework, row.effect) (refused_if (has_pair f.attacks (b, a)) AttackIsThere) live
    (is_false (has_pair f.attacks (b, a)) (λ t. new (pair_there f.attacks (b, a) t))))
"""

ANSWERS = """\
use Rattle.std.proofs.Common.{sym, subst}
use Rattle.semantics.specs.Frameworks.{af}
use Rattle.edit_rules.specs.declared.effect.Effect.{Effect}
use Rattle.edit_rules.proofs.EditWordTests.{not_so}
use Rattle.edit_rules.specs.Replay.{IsTaken}
use Rattle.update_bench.proofs.TakenLemmas.{coming_taken}
use Rattle.update_bench.proofs.coming.Goals as goal

pub returns : goal.returns
returns c =
    let f = c.args.plain.now in
    let live = c.if-not-are_live.false in
    subst (λ (e : Effect). IsTaken (af f) e.edit e) (sym c.of_edit.ensures)
    (coming_taken f c.args.attacker c.args.target (c.are_live.ensures.arguments live, c.are_live.ensures.live live)
    (not_so c.has_attack.result _ c.has_attack.ensures c.if-has_attack.false))
"""

# What is told of one call, and of many.
ONE = {
    "copy": "`AfPlain::copy`, one copy of the framework",
    "first_update": "the first update, which works out and takes in all axioms",
    "second_update": "the second update, which lets the list of all those axioms go",
}
MANY = {
    "insert_attack": "`AfPlain::insert_attack` alone",
    "remove_attack": "`AfPlain::remove_attack` alone",
    "update_coming": "`Engine::update`, an attack that comes",
    "update_going": "`Engine::update`, an attack that goes",
    "update": "`Engine::update`, both by turns",
    **{f"group_{size}": f"`apply_group` of {size:,} edits, both by turns" for size in SIZES},
    "refused_1001": "`apply_group` of 1,001 edits, of which the last is refused",
    **{f"follow_{size}": f"`Engine::update` of {size:,} edits" for size in SIZES},
}


def below(lines, names):
    """The crates of these names and all that they stand on."""
    uses = {line.split(":")[0].split()[0]: line.split(":")[1].split() for line in lines}
    found, waiting = set(), list(names)
    while waiting:
        name = waiting.pop()
        if name in uses and name not in found:
            found.add(name)
            waiting += uses[name]
    return found


def built(folder):
    """The program, proved and built over a copy of the crates."""
    lines = [line for line in (TOP / "crates.txt").read_text(encoding="utf-8").splitlines()
             if ":" in line and not line.startswith("#")]
    needed = below(lines, USED)
    for name in needed:
        shutil.copytree(TOP / "crates" / name, folder / "crates" / name,
                        ignore=shutil.ignore_patterns("out", "must-fail"))
    wanted = [line for line in lines if line.split(":")[0].split()[0] in needed]
    wanted.append("update_bench: " + " ".join(USED))
    (folder / "crates.txt").write_text("\n".join(wanted) + "\n", encoding="utf-8")
    shutil.copy(TOP / "HANDLES", folder / "HANDLES")
    crate = folder / "crates" / "update_bench"
    (crate / "src").mkdir(parents=True)
    (crate / "src" / "main.rt").write_text(PROGRAM, encoding="utf-8")
    (crate / "proofs" / "coming").mkdir(parents=True)
    (crate / "proofs" / "Lib.antt").write_text("mod TakenLemmas\n", encoding="utf-8")
    (crate / "proofs" / "TakenLemmas.antt").write_text(LEMMAS, encoding="utf-8")
    (crate / "proofs" / "coming" / "Answers.antt").write_text(ANSWERS, encoding="utf-8")
    (crate / "stdin").write_text("", encoding="utf-8")
    (crate / "stdout").write_text("", encoding="utf-8")
    done = subprocess.run(["rt", "run"], cwd=crate, stdout=subprocess.PIPE, stderr=subprocess.STDOUT, text=True,
                          stdin=subprocess.DEVNULL)
    program = crate / "out" / "update_bench"
    if done.returncode != 0 or not program.exists():
        sys.exit("bench: the updates aren't built:\n" + "\n".join(done.stdout.splitlines()[-12:]))
    return program


def figures(program, arguments, attacks, edits):
    """What the program tells, by the first word of each line, and its status."""
    done = subprocess.run([str(program)], input=f"{arguments} {attacks} {edits}\n", stdout=subprocess.PIPE, text=True)
    told = {}
    for line in done.stdout.splitlines():
        name, *rest = line.split()
        if rest and all(word.isdigit() for word in rest):
            told[name] = [int(word) for word in rest]
    return told, done.returncode


def is_right(told, status, edits):
    """Whether each edit was taken: all are counted, and the attacks are those from before with what came and went."""
    if status != 0 or "framework" not in told or "edited" not in told:
        return False
    coming, going = edits - edits // 2, edits // 2
    groups = {size: max(edits // size, FEWEST) for size in SIZES}
    more = groups[1] % 2  # of the groups of one, of which each other one comes
    counts = {"insert_attack": edits, "remove_attack": edits, "update_coming": coming, "update_going": going,
              "update": edits, "refused_1001": FEWEST}
    for size, count in groups.items():
        counts |= {f"group_{size}": count, f"follow_{size}": count}
    live, attacks = told["framework"]
    return (all(told.get(name, [0])[0] == count for name, count in counts.items())
            and told.get("grouped") == [attacks + more]
            and told["edited"] == [live, attacks + 1 + coming - going + more])


def show(told):
    """Prints what was told."""
    if "framework" in told:
        live, attacks = told["framework"]
        print(f"update: {live} arguments, {attacks} attacks; load {os.getloadavg()[0]:.1f}")
    for name, meaning in ONE.items():
        if name in told:
            print(f"update: {told[name][1] / 1e6:.1f} ms: {meaning}")
    for name, meaning in MANY.items():
        if name in told:
            count, least, median, high, greatest = told[name]
            print(f"update: least {least / 1e3:.1f}, median {median / 1e3:.1f}, 99th percentile {high / 1e3:.1f}, "
                  f"greatest {greatest / 1e3:.1f} microseconds of {count}: {meaning}")
    if "steps" in told:
        before, after = told["steps"]
        print(f"update: {before} steps in the log behind the first update, {after} behind the last")


def main():
    words = argparse.ArgumentParser(description=__doc__.splitlines()[0])
    words.add_argument("--arguments", type=int, default=ARGUMENTS)
    words.add_argument("--attacks", type=int, default=ATTACKS)
    words.add_argument("--edits", type=int, default=EDITS)
    words.add_argument("--runs", type=int, default=3)
    words.add_argument("--program", help="a program that was built before")
    words.add_argument("--keep", help="where to keep the program that is built")
    asked = words.parse_args()
    wrong = 0
    with tempfile.TemporaryDirectory() as name:
        program = Path(asked.program).resolve() if asked.program else built(Path(name))
        if asked.keep:
            shutil.copy(program, asked.keep)
        for _ in range(asked.runs):
            told, status = figures(program, asked.arguments, asked.attacks, asked.edits)
            show(told)
            right = is_right(told, status, asked.edits)
            under = "update" in told and told["update"][2] < 1_000_000
            slow = [name for name in ("group_1000", "refused_1001", "follow_1000")
                    if name not in told or told[name][2] >= 100_000_000]
            wrong += not (right and under) or bool(slow)
            taken = "each edit was taken" if right else "WRONG, an edit is missing"
            print(f"update: {taken}; the median of an update is {'' if under else 'NOT '}below a millisecond, "
                  f"that of a group of 1,000 {'NOT ' if slow else ''}below a tenth of a second", flush=True)
    sys.exit(1 if wrong else 0)


if __name__ == "__main__":
    main()
