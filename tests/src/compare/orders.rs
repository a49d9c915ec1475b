//! Random sequences of removals, refused ones among them, from an empty stack; and what must hold of them: every order ends in the same
//! remainder, input and remainder agree at each stop on whether they can be satisfied, and each rebuilt choice satisfies every clause of
//! the input.

use super::inputs::{draft, stack_words, SMALL_SHAPES};
use super::Compare;
use crate::second::rebuild::is_false;
use crate::second::removal::eliminate;
use crate::second::{code_of, literal_of, Book, Entry};
use std::collections::BTreeSet;

/// The values of an assignment, bit by bit.
fn values_of(assignment: usize, variables: usize) -> Vec<u8> {
    (0..variables).map(|index| (assignment >> index & 1) as u8).collect()
}

/// The assignments that satisfy the clauses of these numbers.
fn models(book: &Book, numbers: &BTreeSet<usize>) -> Vec<usize> {
    // For each clause the variables that must be 0 and that must be 1 for it to be false.
    let mut masks = Vec::new();
    for number in numbers {
        let (mut zeros, mut ones) = (0usize, 0usize);
        for literal in &book.clauses[number].set {
            let bit = 1 << (literal.unsigned_abs() - 1);
            if *literal > 0 {
                zeros |= bit;
            } else {
                ones |= bit;
            }
        }
        masks.push((zeros, ones));
    }
    (0..1usize << book.variables)
        .filter(|assignment| masks.iter().all(|(zeros, ones)| assignment & zeros != 0 || !assignment & ones != 0))
        .collect()
}

pub fn run(compare: &mut Compare, _case: usize) {
    let shape = compare.random.below(SMALL_SHAPES);
    let mut drawn = draft(&mut compare.random, shape);
    while drawn.variables > 12 {
        drawn = draft(&mut compare.random, shape);
    }
    let (n, m) = (drawn.variables, drawn.clauses.len());
    let book = drawn.book();
    let table = drawn.loose_table(&mut compare.random);
    let satisfiable = !models(&book, &book.numbers()).is_empty();

    let more = compare.random.below(3);
    let mut words: Vec<u32> = compare.old(2 * m + more);
    let mut count = 0;
    let mut entries: Vec<Entry> = Vec::new();
    let mut refused_in_a_row = 0;
    loop {
        // A name at random: mostly a live clause and one of its literals.
        let (clause, literal) = if m == 0 || compare.random.chance(1, 12) {
            (compare.random.below(m + 3) as u32, compare.random.below(2 * n + 4) as u32)
        } else {
            let clause = compare.random.between(1, m);
            match drawn.clauses[clause - 1].len() {
                0 => (clause as u32, 2),
                len => (clause as u32, code_of(drawn.clauses[clause - 1][compare.random.below(len)])),
            }
        };
        let left = compare.remove(&table, &words, count, clause, literal);
        if left.done() {
            refused_in_a_row = 0;
            words = left.stack;
            count = left.said.cells[1];
            entries.push(Entry {
                clause: clause as usize,
                literal: literal_of(literal),
            });
            compare.demand(count == entries.len(), "the count is the number of removals");
            stop(compare, &book, &table, &words, &entries, satisfiable);
            continue;
        }
        refused_in_a_row += 1;
        if refused_in_a_row < 6 {
            continue;
        }
        // Asked, so that the sequence comes to its end.
        let left = compare.next_blocked(&table, &words, count);
        let (clause, literal) = (left.said.cells[1], left.said.cells[2]);
        if clause == 0 {
            break;
        }
        if compare.random.chance(1, 2) {
            refused_in_a_row = 0;
            let left = compare.remove(&table, &words, count, clause as u32, literal as u32);
            compare.demand(left.done(), "the clause that was answered can go");
            words = left.stack;
            count = left.said.cells[1];
            entries.push(Entry {
                clause,
                literal: literal_of(literal as u32),
            });
        }
    }
    stop(compare, &book, &table, &words, &entries, satisfiable);
    // The remainder doesn't depend on the order.
    compare.eliminate(&table, 2 * m);
    compare.demand(
        book.live(&entries) == book.live(&eliminate(&book)),
        "every order ends in the same remainder",
    );
}

/// What must hold at a stop.
fn stop(compare: &mut Compare, book: &Book, table: &super::Table, words: &[u32], entries: &[Entry], satisfiable: bool) {
    let count = entries.len();
    compare.demand(
        words[..2 * count] == stack_words(&mut compare.random.clone(), entries, 0)[..],
        "the stack has the removals in their order",
    );
    let left = compare.check_stack(table, words, count);
    compare.demand(left.done(), "what was removed by name passes the check");
    let live = book.live(entries);
    let live_models = models(book, &live);
    compare.demand(
        live_models.is_empty() != satisfiable,
        "input and remainder agree on whether they can be satisfied",
    );
    for _ in 0..live_models.len().min(3) {
        let values = values_of(*compare.random.pick(&live_models), book.variables);
        let left = compare.rebuild(table, words, count, &values);
        compare.demand(left.done(), "a choice that satisfies the remainder is taken");
        compare.demand(
            !book.clauses.values().any(|clause| is_false(clause, &left.vals)),
            "a rebuilt choice satisfies every clause",
        );
    }
    if count > 0 && compare.random.chance(1, 8) {
        let left = compare.write_saved(table, words, count, 14 + 32_000 + 7 * book.clauses.len());
        compare.demand(left.done(), "what was removed by name can be saved");
        compare.read_saved(&left.out[..left.said.cells[1]]);
    }
}
