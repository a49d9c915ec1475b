//! Random books of many shapes, through all doors.

use super::inputs::{draft, stack_words, values_for, Draft, SHAPES, SMALL_SHAPES};
use super::Compare;
use crate::second::removal::eliminate;
use crate::second::{code_of, literal_of, Entry};
use std::collections::BTreeSet;

/// One book; one of 60 is large.
pub fn run(compare: &mut Compare, case: usize) {
    let shape = if case % 60 == 59 {
        SMALL_SHAPES + (case / 60) % (SHAPES - SMALL_SHAPES)
    } else {
        compare.random.below(SMALL_SHAPES)
    };
    let draft = draft(&mut compare.random, shape);
    through_all_doors(compare, &draft);
}

/// Lends one book to every door: soundness, its literals, its text, elimination, and at some stops of the stack what can be asked there.
pub fn through_all_doors(compare: &mut Compare, draft: &Draft) {
    let (n, m) = (draft.variables, draft.clauses.len());
    let book = draft.book();
    let table = draft.loose_table(&mut compare.random);
    compare.is_sound(&table);
    let last = compare.random.between(0, m + 2);
    for k in [0, 1, m / 2, m, m + 1, last, usize::MAX] {
        compare.clause_literals(&table, k);
    }
    let text = draft.loose_text(&mut compare.random);
    let left = compare.read_text(&text);
    if left.done() {
        let total = draft.literals();
        compare.demand(
            left.lits[..total] == table.lits[..total] && left.offs[..=m] == table.offs[..=m],
            "a text gives the book it was made from",
        );
    }

    let more = compare.random.below(4);
    let left = compare.eliminate(&table, 2 * m + more);
    let entries: Vec<Entry> = (0..left.said.cells[1])
        .map(|index| Entry {
            clause: left.stack[2 * index] as usize,
            literal: literal_of(left.stack[2 * index + 1]),
        })
        .collect();
    compare.demand(entries == eliminate(&book), "the stack that was handed out is the stack");

    let mut stops = vec![0, entries.len()];
    for _ in 0..if m > 100 { 1 } else { 2 } {
        stops.push(compare.random.below(entries.len() + 1));
    }
    stops.sort_unstable();
    stops.dedup();
    for count in stops {
        let more = compare.random.below(3);
        let words = stack_words(&mut compare.random, &entries[..count], 2 * (m - count) + more);
        compare.next_blocked(&table, &words, count);
        compare.check_stack(&table, &words, count);
        if let Some(entry) = entries.get(count) {
            let left = compare.remove(&table, &words, count, entry.clause as u32, code_of(entry.literal));
            compare.demand(left.done(), "the next removal of elimination can be made by name");
        }
        for _ in 0..3 {
            let clause = compare.random.below(m + 2);
            let literal = if clause >= 1 && clause <= m && !draft.clauses[clause - 1].is_empty() && compare.random.chance(7, 8) {
                code_of(*compare.random.pick(&draft.clauses[clause - 1]))
            } else {
                compare.random.below(2 * n + 4) as u32
            };
            compare.remove(&table, &words, count, clause as u32, literal);
        }
        let live = book.live(&entries[..count]);
        let steps = if m > 100 { 200 } else { 40 };
        let mut values = values_for(&mut compare.random, &book, &live, steps);
        let more = compare.random.below(3);
        values.extend(compare.random.u8s(more));
        compare.rebuild(&table, &words, count, &values);
        // A variable that no live clause holds may take any value; then any variable, so that most often a live clause is false.
        let held: BTreeSet<usize> = live
            .iter()
            .flat_map(|number| &book.clauses[number].set)
            .map(|literal| literal.unsigned_abs() as usize)
            .collect();
        for _ in 0..2 {
            for variable in (1..=n).filter(|variable| !held.contains(variable)) {
                values[variable - 1] = compare.random.below(2) as u8;
            }
            compare.rebuild(&table, &words, count, &values);
        }
        for value in values.iter_mut().take(n) {
            if compare.random.chance(1, 8) {
                *value = 1 - *value;
            }
        }
        compare.rebuild(&table, &words, count, &values);
        let length = 14 + 2 * draft.literals() + 5 * m + 2 * count;
        let more = compare.random.below(3);
        let left = compare.write_saved(&table, &words, count, length + more);
        compare.demand(left.done() && left.said.cells[1] == length, "the form has its length");
        compare.write_saved(&table, &words, count, length - 1);
        let left = compare.read_saved(&left.out[..length]);
        compare.demand(left.done(), "a form that was written can be read");
    }

    // The same entries in another order, which may not block.
    if entries.len() > 1 {
        let mut mixed = entries.clone();
        if compare.random.chance(1, 2) {
            mixed.reverse();
        } else {
            let (one, other) = (compare.random.below(mixed.len()), compare.random.below(mixed.len()));
            mixed.swap(one, other);
        }
        let words = stack_words(&mut compare.random, &mixed, 2 * (m - mixed.len()));
        let live = book.live(&mixed);
        let values = values_for(&mut compare.random, &book, &live, 40);
        compare.check_stack(&table, &words, mixed.len());
        compare.next_blocked(&table, &words, mixed.len());
        compare.rebuild(&table, &words, mixed.len(), &values);
        compare.write_saved(&table, &words, mixed.len(), 60_014);
        let form = crate::second::saved::form(&book, &mixed);
        compare.read_saved(&form);
    }
}
