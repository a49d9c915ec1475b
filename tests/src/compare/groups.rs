//! The groups of the comparison: what each runs, how many cases the gate takes, whether a fresh seed makes fresh cases, and which cases are
//! compared where the program is emulated.

use super::{damage, forms, known, limits, orders, program, shapes, short, small, texts, Compare};

pub struct Group {
    pub name: &'static str,
    pub cases: usize,
    /// Whether the seed makes the inputs; if not, it makes only old contents and canaries.
    pub random: bool,
    /// From one case of the part to the next, if the seed does not make the inputs.
    step: usize,
    pub run: fn(&mut Compare, usize),
}

impl Group {
    /// The part of the cases that is compared where the program is emulated: the first tenth of random ones, which has all kinds, and every
    /// `step`-th of others.
    pub fn part(&self) -> Vec<usize> {
        if self.random {
            (0..(self.cases + 9) / 10).collect()
        } else {
            (0..self.cases).step_by(self.step).collect()
        }
    }
}

pub fn groups() -> Vec<Group> {
    let fixed = |name, cases, step, run| Group {
        name,
        cases,
        random: false,
        step,
        run,
    };
    let random = |name, cases, run| Group {
        name,
        cases,
        random: true,
        step: 1,
        run,
    };
    vec![
        fixed("known", known::CASES, 1, known::run),
        fixed("small", small::cases(), 25, small::run),
        random("shapes", 3_000, shapes::run),
        random("orders", 3_000, orders::run),
        random("damage", 16_000, damage::run),
        fixed("limits", limits::cases(), 1, limits::run),
        fixed("text-places", texts::places(), 10, texts::at_each_place),
        fixed("text-tokens", texts::token_cases(), 1, texts::at_each_token),
        fixed("text-limits", texts::limit_cases(), 1, texts::at_the_limits),
        random("texts", 30_000, texts::run),
        fixed("form-places", forms::places(), 10, forms::at_each_place),
        fixed("form-fields", forms::field_cases(), 2, forms::at_each_field),
        fixed("form-limits", forms::limit_cases(), 1, forms::at_the_limits),
        random("forms", 30_000, forms::run),
        random("short", 400, short::run),
        fixed("shrink-fixed", program::fixed_cases(), 1, program::fixed),
        random("shrink", 150, program::run),
    ]
}
