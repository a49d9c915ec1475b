//! Every book over at most 2 variables with at most 3 clauses of at most 2 literals, in every order of removals, through the doors.

use super::inputs::{stack_words, Draft};
use super::{Compare, Table};
use crate::second::rebuild::is_false;
use crate::second::removal::eliminate;
use crate::second::{code_of, literal_of, Book, Entry, Literal};
use std::collections::BTreeSet;

/// Every clause over the variables: each ordered list of at most 2 different literals.
fn clauses(variables: usize) -> Vec<Vec<Literal>> {
    let mut literals = Vec::new();
    for variable in 1..=variables as Literal {
        literals.push(variable);
        literals.push(-variable);
    }
    let mut all = vec![vec![]];
    for &first in &literals {
        all.push(vec![first]);
        for &second in &literals {
            if second != first {
                all.push(vec![first, second]);
            }
        }
    }
    all
}

/// How many books of at most 3 clauses there are over this many clauses.
fn books(clauses: usize) -> usize {
    1 + clauses + clauses * clauses + clauses * clauses * clauses
}

/// 4 books over no variables, 156 over one, 5,220 over two.
pub fn cases() -> usize {
    (0..=2).map(|variables| books(clauses(variables).len())).sum()
}

/// The book of this number.
fn book(mut case: usize) -> Draft {
    for variables in 0..=2 {
        let all = clauses(variables);
        if case >= books(all.len()) {
            case -= books(all.len());
            continue;
        }
        let mut len = 0;
        let mut with_len = 1;
        while case >= with_len {
            case -= with_len;
            len += 1;
            with_len *= all.len();
        }
        let mut drawn = Vec::new();
        for _ in 0..len {
            drawn.push(all[case % all.len()].clone());
            case /= all.len();
        }
        return Draft { variables, clauses: drawn };
    }
    unreachable!("a case outside the group")
}

pub fn run(compare: &mut Compare, case: usize) {
    let draft = book(case);
    let m = draft.clauses.len();
    let table = draft.loose_table(&mut compare.random);
    compare.is_sound(&table);
    for k in 0..=m + 1 {
        compare.clause_literals(&table, k);
    }
    let text = draft.loose_text(&mut compare.random);
    compare.read_text(&text);
    let left = compare.eliminate(&table, 2 * m + case % 2);
    compare.demand(left.done(), "a sound table is taken");
    let mut walk = Walk {
        book: draft.book(),
        table,
        remainder: draft.book().live(&eliminate(&draft.book())),
    };
    walk.from(compare, &mut Vec::new());
}

/// Every order in which the clauses of a book can be removed.
struct Walk {
    book: Book,
    table: Table,
    remainder: BTreeSet<usize>,
}

impl Walk {
    /// At a stop: the question, the check, rebuild of every assignment, the form written and read, and every name there is and some that
    /// are none. The walk goes on behind each removal that is made.
    fn from(&mut self, compare: &mut Compare, entries: &mut Vec<Entry>) {
        let (n, m, count) = (self.book.variables, self.book.clauses.len(), entries.len());
        let more = compare.random.below(3);
        let words = stack_words(&mut compare.random, entries, 2 * (m - count) + more);
        let asked = compare.next_blocked(&self.table, &words, count);
        let left = compare.check_stack(&self.table, &words, count);
        compare.demand(left.done(), "what was removed by name passes the check");
        for assignment in 0..1 << n {
            let values: Vec<u8> = (0..n).map(|index| (assignment >> index & 1) as u8).collect();
            let left = compare.rebuild(&self.table, &words, count, &values);
            if left.done() {
                let all = !self.book.clauses.values().any(|clause| is_false(clause, &left.vals));
                compare.demand(all, "a rebuilt choice satisfies every clause");
            }
        }
        let left = compare.write_saved(&self.table, &words, count, 80);
        compare.demand(left.done(), "what was removed by name can be saved");
        let left = compare.read_saved(&left.out[..left.said.cells[1]]);
        compare.demand(
            left.done() && left.offs[..=m] == self.table.offs[..=m],
            "a form that was written can be read",
        );
        let mut last = true;
        // From the empty stack all names, from those before the first clause and code to those behind the last; later each clause with its
        // literals and one code more.
        let edge = usize::from(count == 0);
        for clause in 1 - edge..=m + edge {
            let codes: Vec<u32> = match self.book.clauses.get(&clause) {
                Some(held) if count > 0 => held
                    .stored
                    .iter()
                    .map(|&literal| code_of(literal))
                    .chain([2 * n as u32 + 2])
                    .collect(),
                _ => (0..=2 * n as u32 + 2).collect(),
            };
            for code in codes {
                let left = compare.remove(&self.table, &words, count, clause as u32, code);
                if left.done() {
                    last = false;
                    entries.push(Entry {
                        clause,
                        literal: literal_of(code),
                    });
                    self.from(compare, entries);
                    entries.pop();
                }
            }
        }
        compare.demand(
            last == (asked.said.cells[1] == 0),
            "the question answers none if nothing can go, and else a clause",
        );
        if last {
            compare.demand(self.book.live(entries) == self.remainder, "every order ends in the same remainder");
        }
    }
}
