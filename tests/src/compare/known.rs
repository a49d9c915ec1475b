//! Document 01's own cases, K1 to K10: the values that it prints, demanded of the second program alone and of every door.

use super::inputs::{stack_words, Draft};
use super::{Compare, Left};
use crate::second::removal::eliminate;
use crate::second::{calls, code_of, saved, shrink, text, Entry, Literal};

pub const K1: &[u8] = b"p cnf 5 5\n1 4 0\n-4 5 0\n-1 2 0\n-2 3 0\n-3 1 0\n";

pub const K1_OUTPUT: &str = "c removed 2 of 5\nc 2 5\nc 1 4\np cnf 5 3\n-1 2 0\n-2 3 0\n-3 1 0\n";

pub const K2: [u8; 63] = [
    0x01, 0x00, 0x08, 0x00, 0x05, 0x00, 0x05, 0x00, 0x0a, 0x00, 0x02, //
    0x02, 0x00, 0x06, 0x00, 0x03, 0x00, 0x03, 0x00, 0x04, //
    0x02, 0x00, 0x06, 0x00, 0x04, 0x00, 0x05, 0x00, 0x06, //
    0x02, 0x00, 0x06, 0x00, 0x05, 0x00, 0x07, 0x00, 0x02, //
    0x03, 0x00, 0x08, 0x00, 0x02, 0x00, 0x0a, 0x00, 0x09, 0x00, 0x0a, //
    0x03, 0x00, 0x08, 0x00, 0x01, 0x00, 0x08, 0x00, 0x02, 0x00, 0x08, //
    0x7f, 0x00, 0x00,
];

/// The stack that K1 ends with.
pub const K1_STACK: [Entry; 2] = [Entry { clause: 2, literal: 5 }, Entry { clause: 1, literal: 4 }];

pub fn k1() -> Draft {
    Draft::of(5, &[&[1, 4], &[-4, 5], &[-1, 2], &[-2, 3], &[-3, 1]])
}

/// A case that is a book: its text, its clauses, and the stack that elimination ends with.
pub struct Known {
    pub name: &'static str,
    pub text: &'static [u8],
    draft: Draft,
    removed: Vec<Entry>,
}

/// The books of K1 and K5 to K9.
pub fn books() -> Vec<Known> {
    let known = |name, text, draft, removed: &[(usize, Literal)]| Known {
        name,
        text,
        draft,
        removed: removed.iter().map(|&(clause, literal)| Entry { clause, literal }).collect(),
    };
    vec![
        known("K1", K1, k1(), &[(2, 5), (1, 4)]),
        known("K5", b"p cnf 0 0\n", Draft::of(0, &[]), &[]),
        known(
            "K6",
            b"p cnf 1 3\n1 -1 0 1 0 -1 0\n",
            Draft::of(1, &[&[1, -1], &[1], &[-1]]),
            &[(1, 1)],
        ),
        known("K7", b"p cnf 1 2\n1 0 1 -1 0\n", Draft::of(1, &[&[1], &[1, -1]]), &[(2, 1), (1, 1)]),
        known("K8", b"p cnf 0 1\n0\n", Draft::of(0, &[&[]]), &[]),
        known("K9", b"p cnf 1 2\n1 0 1 0\n", Draft::of(1, &[&[1], &[1]]), &[(1, 1), (2, 1)]),
    ]
}

/// The second program alone on K1 to K10; what is not as document 01 has it is named.
pub fn second_alone() -> Vec<String> {
    let mut faults = Vec::new();
    let mut demand = |holds: bool, what: &str| {
        if !holds {
            faults.push(format!("the second program is not right at {}", what));
        }
    };
    for known in books() {
        demand(text::read(known.text) == Ok(known.draft.book()), known.name);
        // K9 says "both go", and not by what or in which order: the sweep and the only literal leave one stack.
        demand(eliminate(&known.draft.book()) == known.removed, known.name);
    }
    demand(shrink::shrink(K1) == K1_OUTPUT, "K1, shrink");
    let book = k1().book();
    demand(saved::form(&book, &K1_STACK) == K2.to_vec(), "K2, written");
    demand(saved::read(&K2) == Ok((book, K1_STACK.to_vec())), "K2, read");
    let table = k1().table();
    let words: Vec<u32> = vec![2, 10, 1, 8, 0, 0, 0, 0, 0, 0];
    let mut values = vec![0, 0, 0, 0, 0];
    let said = calls::rebuild(5, 5, &table.lits, &table.offs, &words, 2, &mut values);
    demand(said.cells == [0, 0, 0, 0] && values == [0, 0, 0, 1, 1], "K3");
    let mut values = vec![1, 0, 0, 0, 0];
    let said = calls::rebuild(5, 5, &table.lits, &table.offs, &words, 2, &mut values);
    demand(said.cells == [9, 3, 0, 0] && values == [1, 0, 0, 0, 0], "K4");
    let mut stack = vec![7; 10];
    let said = calls::remove(5, 5, &table.lits, &table.offs, &mut stack, 0, 1, code_of(4));
    demand(said.cells == [6, 1, 0, 0] && stack == vec![7; 10], "K10");
    faults
}

/// How many cases this group has.
pub const CASES: usize = 10;

fn demand_cells(compare: &Compare, left: &Left, cells: [usize; 4], what: &str) {
    compare.demand(left.said.cells == cells, what);
}

/// The doors on case K1 to K10; each is compared with the second program and with document 01.
pub fn run(compare: &mut Compare, case: usize) {
    let table = k1().table();
    let words = stack_words(&mut compare.random, &K1_STACK, 6);
    match case {
        1 => {
            let left = compare.write_saved(&table, &words, 2, 63);
            demand_cells(compare, &left, [0, 63, 0, 0], "K2 has 63 bytes");
            compare.demand(left.out == K2.to_vec(), "K2, written");
            let left = compare.write_saved(&table, &words, 2, 62);
            demand_cells(compare, &left, [3, 0, 0, 0], "K2 needs 63 bytes");
            let left = compare.read_saved(&K2);
            demand_cells(compare, &left, [0, 5, 5, 2], "K2, read");
            compare.demand(left.lits[..10] == table.lits[..], "K2, literals");
            compare.demand(left.offs[..6] == table.offs[..], "K2, offsets");
            compare.demand(left.stack[..4] == [2, 10, 1, 8], "K2, stack");
        }
        2 => {
            let left = compare.rebuild(&table, &words, 2, &[0, 0, 0, 0, 0]);
            demand_cells(compare, &left, [0, 0, 0, 0], "K3");
            compare.demand(left.vals == [0, 0, 0, 1, 1], "K3, values");
        }
        3 => {
            let left = compare.rebuild(&table, &words, 2, &[1, 0, 0, 0, 0]);
            demand_cells(compare, &left, [9, 3, 0, 0], "K4");
        }
        9 => {
            let left = compare.remove(&table, &words, 0, 1, code_of(4));
            demand_cells(compare, &left, [6, 1, 0, 0], "K10");
        }
        _ => {
            // K1 and K5 to K9.
            let known = books().swap_remove(if case == 0 { 0 } else { case - 3 });
            let (name, table) = (known.name, known.draft.table());
            let (n, m, total) = (known.draft.variables, known.draft.clauses.len(), known.draft.literals());
            let left = compare.read_text(known.text);
            demand_cells(compare, &left, [0, n, m, 0], name);
            compare.demand(left.lits[..total] == table.lits[..] && left.offs[..=m] == table.offs[..], name);
            let left = compare.eliminate(&table, 2 * m);
            demand_cells(compare, &left, [0, known.removed.len(), 0, 0], name);
            for (index, entry) in known.removed.iter().enumerate() {
                compare.demand(
                    left.stack[2 * index..2 * index + 2] == [entry.clause as u32, code_of(entry.literal)],
                    name,
                );
            }
        }
    }
}
