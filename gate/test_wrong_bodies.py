#!/usr/bin/env python3
"""Tries wrong_bodies.py on a small crate: what changes nothing must be told as let through, also beside what is refused."""
import os
import pathlib
import subprocess
import sys
import tempfile

SOURCE = """#![tactic(auto)]

ghost use Rattle.std.specs.Prelude.{◌≡◌, ◌+◌, ℕ};

mod apart;

pub struct Pair {
    pub first: u8,
    pub second: u8,
}

pub struct Held<T> {
    pub value: T,
}

/// What has a first number.
pub trait First {
    ghost first: { Self → ℕ };

    fn first(&self) -> u8
        ensures { result ≡ first self.now };
}

impl First for Held<Pair> {
    ghost first = { λ held. held.value.first };

    fn first(&self) -> u8 {
        self.value.first
    }
}

fn next(number: u8) -> u16
    ensures { result ≡ number + 1 }
{
    number as u16 + 1
}

/// The number after the next.
pub fn second(number: u8) -> u16
    ensures { result ≡ number + 2 }
{
    next(number) + 1
}

/// A law, which does nothing.
pub fn same()
    ensures { (number : ℕ) → number + 1 ≡ number + 1 }
{}
"""
# A function of a type that is declared elsewhere.
APART = """ghost use Rattle.std.specs.Prelude.{◌≡◌, ◌+◌};

use crate::Pair;

impl Pair {
    pub fn sum(&self) -> u16
        ensures { result ≡ self.now.first + self.now.second }
    {
        self.first as u16 + self.second as u16
    }
}
"""
# The name, the file, the old text and the new one of each edit, and how what is told of it begins. The caller of a function that
# is not proved is not proved either: beside the first, the fourth must not be told as refused, nor the last in a later round,
# in which the first or the second stays made.
EDITS = [
    ("next_is_the_same", "lib", "number as u16 + 1", "number as u16", "refused, "),
    ("next_is_too_far", "lib", "number as u16 + 1", "number as u16 + 2", "refused, "),
    ("no_such_name", "lib", "next(number) + 1", "next(number) + one", "DOES NOT COMPILE"),
    ("sum_turned_round", "lib", "next(number) + 1", "1 + next(number)", "LET THROUGH"),
    ("no_such_text", "lib", "next(number) + 3", "next(number)", "CANNOT BE MADE"),
    ("first_is_doubled", "apart", "self.second as u16", "self.first as u16", "refused, "),
    ("second_is_first", "lib", "self.value.first", "self.value.second", "refused, "),
    ("three_is_added", "lib", "next(number) + 1", "next(number) + 2", "refused, "),
    ("zero_is_added", "lib", "next(number) + 1", "next(number) + 1 + 0", "LET THROUGH"),
]
# One that turns the contract of the function below that has to refuse it.
TURNED = """why: Sums; of one
in: src/lib.rt second
file: src/lib.rt
old: number as u16 + 1
new: number as u16
file: src/lib.rt
old: ensures { result ≡ number + 1 }
new: ensures { result ≡ number }
"""
# One that a law has to refuse.
UNLAWFUL = """law: src/lib.rt same
file: src/lib.rt
old: number + 1 ≡ number + 1
new: number + 1 ≡ number + 2
"""


def main():
    with tempfile.TemporaryDirectory(prefix="wrong-bodies-test-") as top:
        crate = pathlib.Path(top, "crates/small")
        for folder in ("src", "wrong-bodies"):
            (crate / folder).mkdir(parents=True)
        pathlib.Path(top, "docs").mkdir()
        pathlib.Path(top, "docs/promises.md").write_text("| **Sums** | the sum of two is told |\n")
        pathlib.Path(top, "crates.txt").write_text("small:\n")
        (crate / "src/lib.rt").write_text(SOURCE)
        (crate / "src/apart.rt").write_text(APART)
        for name, file, old, new, _ in EDITS:
            (crate / f"wrong-bodies/{name}.edit").write_text(f"file: src/{file}.rt\nold: {old}\nnew: {new}\n")
        (crate / "wrong-bodies/turned.edit").write_text(TURNED)
        (crate / "wrong-bodies/unlawful.edit").write_text(UNLAWFUL)
        # As the gate calls it; then alone, over what rt ci has passed; and where no time is left.
        script = pathlib.Path(__file__).resolve().with_name("wrong_bodies.py")
        how = {"cwd": top, "stdin": subprocess.DEVNULL, "capture_output": True, "text": True}
        for words in [[script, "--beside-ci"], [script, "small"]]:
            see_told(subprocess.run(words, **how))
        late = subprocess.run([script], env=os.environ | {"WRONG_BODY_MINUTES": "0"}, **how)
        see(late, late.stdout.endswith("\n0 refused, 1 let through, 10 not tried\n"))
    print("wrong_bodies.py tells a wrong body that is let through")


def see_told(ran):
    """Ends the run where something else was told of the edits."""
    told = [line for line in ran.stdout.splitlines() if line.startswith("small/")]
    wanted = sorted([*(f"small/{name}: {what}" for name, *_, what in EDITS), "small/turned: refused, ", "small/unlawful: refused, "])
    through = sorted(f"small/{name}" for name, *_, what in EDITS if not what.startswith("refused"))
    ends = [f"not refused: {' '.join(through)}", "7 refused, 4 let through"]
    is_told = len(told) == len(wanted) and all(line.startswith(it) for line, it in zip(sorted(told), wanted))
    see(ran, is_told and ran.stdout.splitlines()[-2:] == ends)


def see(ran, is_well):
    if not is_well or ran.returncode != 1:
        sys.exit(f"wrong_bodies.py, tried on a small crate, ended with {ran.returncode}:\n{ran.stdout}{ran.stderr}")


if __name__ == "__main__":
    main()
