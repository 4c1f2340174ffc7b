"""The crates that tests/planted_bugs_itself makes: `small`, whose functions are of each form that a stand-in may have, and
`other`, which also stands as `above`.
"""
SMALL = """//! Functions of numbers.
#![tactic(auto)]

ghost use Rattle.std.specs.Prelude.{◌≡◌, ◌≤◌, ◌+◌, true, false};
ghost use Rattle.small.specs.Small.{twice_of};

mod halves;

const FIRST: usize = 1;

pub fn least(x: usize, y: usize) -> usize
    ensures first { result ≤ x }
    ensures second { result ≤ y }
{
    if x < y { x } else { y }
}

pub fn least_of_three(x: usize, y: usize, z: usize) -> usize
    ensures first { result ≤ x }
    ensures third { result ≤ z }
{
    let of_two = least(x, y);
    least(of_two, z)
}

pub fn greatest(x: usize, y: usize) -> usize
    ensures first { x ≤ result }
    ensures second { y ≤ result }
{
    if x < y { y } else { x }
}

pub fn first() -> usize
    ensures { result ≡ 1 }
{
    FIRST
}

pub fn twice(x: usize) -> usize
    requires { x ≤ 1000 }
    ensures { result ≡ twice_of x }
{
    x + x
}

pub fn counted(x: usize) -> usize
    ensures { result ≡ x }
{
    if x == 0 { 0 } else { counted(x - 1) + 1 }
}

pub struct Held {
    pub held: usize,
}

impl Held {
    pub fn again(&self) -> usize
        ensures { result ≡ self.now.held }
    {
        self.held
    }

    pub fn add(&mut self, more: usize)
        requires held { self.old.held ≤ 1000 }
        requires more { more ≤ 1000 }
        ensures { self.new.held ≡ self.old.held + more }
    {
        let sum = self.held + more;
        let held = &mut self.held;
        *held = sum;
    }
}

pub fn either<T: Copy>(given: T, other: T, is_first: bool) -> T
    ensures first { is_first ≡ true → result ≡ given }
    ensures other { is_first ≡ false → result ≡ other }
{
    if is_first { given } else { other }
}

/// What this stands on is of each form that a stand-in may have.
pub fn taken(held: &mut Held, more: usize) -> usize
    requires held { held.old.held ≤ 1000 }
    requires more { more ≤ 1000 }
    ensures { result ≡ held.old.held + more }
{
    held.add(more);
    let half = held.half();
    let greater = either(half, held.held, false);
    greater
}

/// Its proof names that of `twice`.
pub fn four_times(x: usize) -> usize
    requires { x ≤ 500 }
    ensures { result ≡ twice_of (x + x) }
{
    let two = x + x;
    twice(two)
}

#[cycle(steps)]
pub fn by_one(x: usize) -> usize
    ensures { result ≡ x }
{
    if x < 1 { x } else { by_two(x - 1) + 1 }
}

#[cycle(steps)]
pub fn by_two(x: usize) -> usize
    ensures { result ≡ x }
{
    if x < 2 { x } else { by_three(x - 2) + 2 }
}

#[cycle(steps)]
pub fn by_three(x: usize) -> usize
    ensures { result ≡ x }
{
    if x < 3 { x } else { by_one(x - 3) + 3 }
}

#[cycle(turns)]
pub fn turned(x: usize) -> usize
    ensures { result ≡ x }
{
    if x < 1 { x } else if x < 4 { by_near(x - 1) + 1 } else { by_far(x - 4) + 4 }
}

#[cycle(turns)]
pub fn by_near(x: usize) -> usize
    ensures { result ≡ x }
{
    if x < 1 { x } else { turned(x - 1) + 1 }
}

#[cycle(turns)]
pub fn by_far(x: usize) -> usize
    ensures { result ≡ x }
{
    if x < 2 { x } else { turned(x - 2) + 2 }
}
"""
HALVES = """//! Halves of what is held, in another file than its type.
ghost use Rattle.std.specs.Prelude.{◌≤◌};

use super::Held;

impl Held {
    pub fn half(&self) -> usize
        ensures { result ≤ self.now.held }
    {
        self.held / 2
    }
}
"""
SPECS = """-- What a number and itself make together.
use Rattle.std.specs.Prelude.{ℕ, ◌+◌}

unfoldable pub twice_of : ℕ → ℕ
twice_of n = n + n
"""
OF_HELD = """-- What is returned is what the contract says.
use Rattle.std.proofs.Common.{refl}
use Rattle.small.proofs.Held.again.Goals as goal

pub returns : goal.returns
returns c = refl
"""
MEASURE = """
abbrev pub decreases-%s : goal.decreases-%s
decreases-%s l = l.x
"""
NAMES_ANOTHER = """-- What it stands on is named here.
use Rattle.small.proofs.twice.Met.{met as of_twice}
"""
SUMS = """-- What a number and itself make together.
use Rattle.std.proofs.Common.{◌≡◌, ◌+◌, ℕ, refl}
use Rattle.small.specs.Small.{twice_of}

pub summed : (n : ℕ) → n + n ≡ twice_of n
unfolding twice_of
summed n = refl
"""
BY_LEMMA = """-- What is returned is what the contract says.
use Rattle.small.proofs.Sums.{summed}
use Rattle.small.proofs.twice.Goals as goal

pub returns : goal.returns
returns c = summed c.args.x
"""


def measures(cycle, *functions):
    """The measures of the functions of a cycle."""
    parts = [MEASURE.replace("%s", it) for it in functions]
    return f"use Rattle.small.proofs.+{cycle}.Given as goal\n{''.join(parts)}"


FIRST_OF_COUNTED = """-- Nothing is counted as nothing.
use Rattle.std.proofs.Common.{sym}
use Rattle.small.proofs.+counted.Goals as goal

pub returns-then-x-eq0 : goal.returns-then-x-eq0
returns-then-x-eq0 t c = sym c.if-x-eq0.true
"""
FIRST_OF_FAR = """-- What is near stays.
use Rattle.std.proofs.Common.{refl}
use Rattle.small.proofs.+turns.Goals as goal

pub by_far-returns-then-x-lt2 : goal.by_far-returns-then-x-lt2
by_far-returns-then-x-lt2 t c = refl
"""
OF_SMALL = {
    "src/lib.rt": SMALL,
    "src/halves.rt": HALVES,
    "specs/Lib.antt": "pub mod Small\n",
    "specs/Small.antt": SPECS,
    "proofs/+counted/Invariants.antt": measures("counted", "counted"),
    "proofs/+counted/Answers.antt": FIRST_OF_COUNTED,
    "proofs/+steps/Invariants.antt": measures("steps", "by_one", "by_two", "by_three"),
    "proofs/+turns/Invariants.antt": measures("turns", "turned", "by_near", "by_far"),
    "proofs/+turns/Answers.antt": FIRST_OF_FAR,
    "proofs/Lib.antt": "mod Sums\n",
    "proofs/Sums.antt": SUMS,
    "proofs/four_times/Answers.antt": NAMES_ANOTHER,
    "proofs/twice/Answers.antt": BY_LEMMA,
    "proofs/Held/again/Answers.antt": OF_HELD,
}
OTHER = """//! Functions of which a check reports one.
#![tactic(auto)]

ghost use Rattle.std.specs.Prelude.{◌≡◌, ◌+◌};

pub fn same(given: usize) -> usize
    ensures { result ≡ given }
{
    given
}

#[cfg(test)]
fn same_in_tests(x: usize) -> usize {
    x + 1 - 1
}
"""
OF_OTHER = {"src/lib.rt": OTHER}
