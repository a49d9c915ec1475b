//! What the calls have reached: how often each door gave each refusal, and for which reason. The gate demands every one that document 01
//! allows.

use super::Door;
use crate::second::calls::Said;
use std::collections::BTreeMap;

#[derive(Default)]
pub struct Tally {
    counts: BTreeMap<(Door, usize, &'static str), usize>,
}

const DOORS: [Door; 10] = [
    Door::IsSound,
    Door::ClauseLiterals,
    Door::ReadText,
    Door::Eliminate,
    Door::Remove,
    Door::NextBlocked,
    Door::CheckStack,
    Door::Rebuild,
    Door::WriteSaved,
    Door::ReadSaved,
];

/// The reasons for which a table is not sound.
const UNSOUND: [&str; 10] = [
    "n over 2,000",
    "m over 4,000",
    "too few offsets",
    "the first offset is not 0",
    "an offset smaller than the one before",
    "the last offset over 16,000",
    "the last offset beyond the literals",
    "a clause over 1,000 literals",
    "a code outside 2 to 2n+1",
    "a literal twice in a clause",
];

/// The reasons for which a stack is refused.
const BAD_STACK: [&str; 4] = [
    "the count above m",
    "an entry's clause outside 1 to m",
    "an entry's clause already named",
    "an entry's literal not in its clause",
];

/// What a door can answer: the number, and each reason for it.
fn allowed(door: Door) -> Vec<(usize, Vec<&'static str>)> {
    let bad_table = (4, UNSOUND.to_vec());
    let no_stack_room = (3, vec!["a short stack"]);
    let bad_stack = (5, BAD_STACK.to_vec());
    let not_blocking = (6, vec!["an entry that does not block"]);
    let done = (0, vec!["done", "a short answer"]);
    match door {
        Door::IsSound => {
            let mut reasons = UNSOUND.to_vec();
            reasons.push("sound");
            vec![(0, reasons)]
        }
        Door::ClauseLiterals => vec![done],
        Door::ReadText => vec![
            done,
            (
                1,
                vec![
                    "a line before the problem line that is no comment",
                    "no problem line",
                    "a first token other than p",
                    "no cnf",
                    "a second token other than cnf",
                    "no V",
                    "a V that is no number",
                    "no C",
                    "a C that is no number",
                    "a token behind C",
                    "a text that ends before its last clause does",
                    "a token that is no number",
                    "a variable above V",
                    "a token behind the last clause",
                ],
            ),
            (
                2,
                vec![
                    "a text over 65,536 bytes",
                    "V over 2,000",
                    "C over 4,000",
                    "a clause's 1,001st literal",
                    "the table's 16,001st literal",
                ],
            ),
            (3, vec!["short literals", "short offsets"]),
        ],
        Door::Eliminate => vec![done, no_stack_room, bad_table],
        Door::Remove => vec![
            done,
            no_stack_room,
            bad_table,
            bad_stack,
            (6, vec!["a removal that does not block"]),
            (
                7,
                vec![
                    "a removal's clause outside 1 to m",
                    "a removal's clause not live",
                    "a removal's literal not in its clause",
                ],
            ),
        ],
        Door::NextBlocked => vec![done, no_stack_room, bad_table, bad_stack],
        Door::CheckStack => vec![done, no_stack_room, bad_table, bad_stack, not_blocking],
        Door::Rebuild => vec![
            done,
            (3, vec!["a short stack", "short values"]),
            bad_table,
            bad_stack,
            not_blocking,
            (8, vec!["a value neither 0 nor 1"]),
            (9, vec!["a live clause that is false"]),
        ],
        Door::WriteSaved => vec![
            done,
            (3, vec!["a short stack", "a short output"]),
            bad_table,
            bad_stack,
            not_blocking,
        ],
        Door::ReadSaved => vec![
            done,
            (
                2,
                vec![
                    "n over 2,000",
                    "m over 4,000",
                    "literals in all over 16,000",
                    "a clause over 1,000 literals",
                    "over 16,000 literals met",
                ],
            ),
            (3, vec!["short literals", "short offsets", "a short stack"]),
            not_blocking,
            (
                10,
                vec![
                    "a field that is not whole",
                    "another tag",
                    "a wrong length",
                    "more removals than clauses",
                    "a clause number outside 1 to m",
                    "a clause number met before",
                    "a live clause's number not rising",
                    "a code outside 2 to 2n+1",
                    "a repeated literal",
                    "a blocking literal not in its clause",
                    "a total that disagrees",
                    "bytes behind the end",
                ],
            ),
        ],
    }
}

impl Tally {
    pub fn count(&mut self, door: Door, said: Said) {
        *self.counts.entry((door, said.cells[0], said.why)).or_insert(0) += 1;
    }

    /// How often a door gave a number.
    fn given(&self, door: Door, number: usize) -> usize {
        self.counts
            .iter()
            .filter(|((of, given, _), _)| *of == door && *given == number)
            .map(|(_, count)| count)
            .sum()
    }

    /// The table of doors and numbers: how often each was given, `-` where document 01 does not allow it.
    pub fn print(&self) {
        print!("{:<16}", "given");
        for number in 0..=10 {
            print!("{:>9}", number);
        }
        println!();
        for door in DOORS {
            print!("{:<16}", format!("{:?}", door));
            for number in 0..=10 {
                if allowed(door).iter().any(|(of, _)| *of == number) {
                    print!("{:>9}", self.given(door, number));
                } else {
                    print!("{:>9}", "-");
                }
            }
            println!();
        }
    }

    /// The answers and reasons that document 01 allows and that never occurred, and those that occurred and are not on the list.
    pub fn missing(&self) -> Vec<String> {
        let mut missing = Vec::new();
        let mut listed = 0;
        for door in DOORS {
            for (number, reasons) in allowed(door) {
                for why in reasons {
                    match self.counts.get(&(door, number, why)) {
                        Some(_) => listed += 1,
                        None => missing.push(format!("{:?} never answered {} for: {}", door, number, why)),
                    }
                }
            }
        }
        if listed != self.counts.len() {
            missing.push(format!(
                "{} answers with their reasons are listed, {} occurred",
                listed,
                self.counts.len()
            ));
        }
        missing
    }
}
